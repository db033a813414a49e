#!/usr/bin/env python3
"""draw_crates.py: docs/crates.svg from crates.txt. A crate stands above all that it stands on, so that every arrow points down.

An arrow that others imply (a crate under a crate that is drawn already) is left out. The kit's own crates are not drawn.
"""
import os

os.chdir(os.path.join(os.path.dirname(os.path.abspath(__file__)), '..'))
below = {}
for line in open('crates.txt', encoding='utf-8'):
    name, colon, rest = line.split('#')[0].partition(':')
    if colon:
        # what stands behind the name says how the crate is built
        below[name.split()[0]] = rest.split()
below = {name: [d for d in deps if d in below] for name, deps in below.items()}


def level(name):
    return 1 + max((level(d) for d in below[name]), default=-1)


def reach(name):
    return {name}.union(*(reach(d) for d in below[name]))


rows = {}
for name in below:
    rows.setdefault(level(name), []).append(name)
arrows = [(a, b) for a in below for b in below[a] if not any(b in reach(c) for c in below[a] if c != b)]
WIDTH, HIGH, GAP, STEP = 84, 26, 22, 62
wide = max(len(r) for r in rows.values()) * (WIDTH + GAP) + GAP
place = {}
# each row from the bottom up: a crate as near as it can be to the middle of what it stands on
for n in sorted(rows):
    def wish(name):
        under = [place[b][0] for a, b in arrows if a == name]
        return sum(under) / len(under) if under else wide / 2
    row = sorted(rows[n], key=wish)
    xs, free = [], GAP + WIDTH / 2
    for name in row:
        xs.append(max(free, wish(name)))
        free = xs[-1] + WIDTH + GAP
    limit = wide - GAP - WIDTH / 2
    for i in reversed(range(len(xs))):
        xs[i] = min(xs[i], limit)
        limit = xs[i] - WIDTH - GAP
    for name, x in zip(row, xs):
        place[name] = (x, (max(rows) - n) * STEP + GAP)
out = [f'<svg xmlns="http://www.w3.org/2000/svg" width="{wide:.0f}" height="{max(rows) * STEP + HIGH + 2 * GAP}" font-family="sans-serif" font-size="13">',
       '<defs><marker id="tip" viewBox="0 0 8 8" refX="7" refY="4" markerWidth="7" markerHeight="7" orient="auto"><path d="M0,0 L8,4 L0,8 z" fill="#777"/></marker></defs>']
for a, b in arrows:
    (x, y), (u, v) = place[a], place[b]
    assert y < v, (a, b)
    out.append(f'<line x1="{x:.0f}" y1="{y + HIGH}" x2="{u:.0f}" y2="{v}" stroke="#777" marker-end="url(#tip)"/>')
for name, (x, y) in place.items():
    out.append(f'<rect x="{x - WIDTH / 2:.0f}" y="{y}" width="{WIDTH}" height="{HIGH}" rx="5" fill="#eef4ff" stroke="#456"/>')
    out.append(f'<text x="{x:.0f}" y="{y + 17}" text-anchor="middle">{name}</text>')
out.append('</svg>')
open('docs/crates.svg', 'w', encoding='utf-8').write('\n'.join(out) + '\n')
print(f'{len(below)} crates, {len(arrows)} arrows, {len(rows)} levels')
