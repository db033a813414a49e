#!/usr/bin/env python3
"""edits.py: docs/EDITS.md, the must-fail edits with the first error of each, from a file of what `rt must-fail` or the gate printed.

usage: edits.py OUTPUT [CRATE..]        with crates named, their rows are printed and the page stays

Exits with 1 and names them where an edit is not told of, is no proper edit, was not tried or not refused, or was refused only because a
proof file names what it took away: such an edit shows nothing.
"""
import glob
import os
import re
import sys

output, crates = os.path.abspath(sys.argv[1]), sys.argv[2:]
os.chdir(os.path.join(os.path.dirname(os.path.abspath(__file__)), '..'))
TOLD = r'rt: must-fail (\S+)\.edit: (.*)'
REFUSED, UNFIT, LIMIT = 'refused, as it must be', ' (only because a proof file ', ' (only by a limit '
# what a layer that stands above `promises` is refused for
WALLS = {
    'cannot be had': 'a crate that is not listed cannot be named',
    'cannot be unfolded': 'a name that is passed on shut cannot be opened',
}
HEAD = '''# The edits, and the first error of each

Written by `tools/edits.py` from the lines of `rt must-fail` in a whole run. Each edit keeps the shape of what it changes; the check refuses it because a fact no longer holds. Where an error's line breaks off before what was found, only what was expected is told.

| edit | what would be lost | where it is refused | the first error |
|---|---|---|---|
'''


def function_at(source, line):
    """The path of the function that this line of a crate's src/ belongs to. An edit changes lines and moves none."""
    lines = open(source, encoding='utf-8').read().split('\n')
    # a function's attributes belong to it, and stand before its name
    while lines[line - 1].lstrip().startswith('#['):
        line += 1
    names = [m[1] for m in (re.search(r'\bfn (\w+)', it) for it in lines[:line]) if m]
    module = re.sub(r'(^|/)(lib|main)$', '', source.split('/src/')[1][:-3])
    return '/'.join([module] * bool(module) + names[-1:])


def in_short(text):
    """A term with no paths of modules in front of its names."""
    return re.sub(r'\bc\.args\.|\b(?:[A-Za-z]\w*\.)*[A-Z]\w*\.(?=\S)', '', text)


def first_error(crate, said):
    """Where the edit is refused, at which goal, and for what: the shortest true telling of its message."""
    place = re.match(r'(?:note: )?(?:\./)?(proofs|src|specs)/(\S+?):(\d+):\d+: (?:error: )?(.*)', said)
    if not place:
        return None
    folder, file, line, text = place.groups()
    where = function_at(f'crates/{crate}/src/{file}', int(line)) if folder == 'src' else re.sub(r'(/(Answers|Invariants))?\.antt$|\+', '', file)
    goal, text = re.match(r'(?:`([^`]+)`: )?(.*)', text).groups()
    unproved = re.match(r'it is not proved .*?\(`([^`]+)`\)', text)
    # what is computed says it shortest; a long term says nothing
    pair = re.search(r'one has `([^`]{1,40})` \(expected\)(?:.{0,80}?the other has `([^`]{1,40})`)?', text) or re.match(r'expected type `([^`]{1,40})`, but this has type `([^`]{1,40})`', text)
    wall = next((why for words, why in WALLS.items() if words in text), None)
    if wall:
        why = wall
    elif text.startswith('`omega`'):
        why = 'arithmetic: the goal does not follow'
    elif text.startswith('it is not proved') or 'no proof of' in text:
        goal, why = unproved[1] if unproved else goal, 'no proof is found'
    elif pair:
        why = f'`{in_short(pair[1])}` expected' + (f', `{in_short(pair[2])}` found' if pair[2] else '')
    else:
        why = 'the two sides differ'
    return where, goal, why


told = dict(re.findall('(?m)^' + TOLD, open(output, encoding='utf-8').read()))
rows, wrong = [], []
for path in sorted(glob.glob('crates/*/must-fail/*.edit')):
    crate, name = path.split('/')[1], os.path.basename(path)[:-5]
    if crates and crate not in crates:
        continue
    lost = open(path, encoding='utf-8').readline().lstrip('# ').strip()
    said = told.get(f'{crate}/{name}', 'not told of')
    if not said.startswith(REFUSED) or said.startswith(REFUSED + UNFIT):
        wrong.append(f'{crate}/{name}: {said}')
        continue
    by_limit = said.startswith(REFUSED + LIMIT)
    found = first_error(crate, re.sub(r'^.*?(?:\(only by .*?\))?: ', '', said[len(REFUSED):], count=1))
    if not found:
        wrong.append(f'{crate}/{name}: no error can be read: {said}')
        continue
    where, goal, why = found
    rows.append(f'| `{crate}/{name}` | {lost} | {where}' + (f', `{goal}`' if goal else '') + f' | {"only a limit of the prover" if by_limit else why} |\n')
if wrong:
    print('\n'.join(wrong))
if crates:
    print(''.join(rows), end='')
if wrong:
    sys.exit(1)
if not crates:
    open('docs/EDITS.md', 'w', encoding='utf-8').write(HEAD + ''.join(rows))
print(f'{len(rows)} edits')
