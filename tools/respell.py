#!/usr/bin/env python3
"""Spells the repository's own definitions and lemmas in snake case: camel case and dashes go, types and modules keep their capitals.

usage: respell.py        at the top of the repository, once, after the kit's port.py

It goes by text, over the .antt and .rt files and the must-fail edits of crates/. What it turns is every lower-case name with a dash or a
hump that stands in a file of specs/ or of proofs/Laws; names of Rust functions, types, modules and files stay. A lemma that would get
the name of a definition ends in `_lem`. In comments and in pages only names between backquotes are turned.
Of what a function's own proof declares nothing is turned: those files are read anew for their goals' new names.
"""

import collections
import glob
import re
import sys

NAME = r'[^\s(){}.;,@"«»]+'
FUNCTION = re.compile(r"/proofs/(?!Laws/).*(Proof|Answers|Invariants)\.antt$")
USE = re.compile(r"^\s*(?:pub )?use ([^\s{]+?)\.?\{([^}]*)\}", re.M)
DECLARED = re.compile(r"(?m)^\s*(?:(?:pub|abbrev|unfoldable|data|record) )*((?:" + NAME + r" )+?):(?= )")
COMMENT = {".antt": re.compile(r"--[^\n]*"), ".rt": re.compile(r"//[^\n]*")}
# lemmas that the kit's script has turned to snake case already and that would meet a definition, by the files that they stand in
MET = {
    "model_in": ["crates/chip/proofs/Laws/Chip.antt"],
    "part_bytes": ["crates/pages/proofs/Laws/Parts.antt"],
    "words_left": ["crates/words/proofs/Laws/Walk.antt"],
    "at_rest": ["crates/powercut/proofs/Laws/Frames.antt"],
    "is_name": [
        "crates/namelist/proofs/Laws/Comparing.antt",
        "crates/namelist/proofs/Laws/Position.antt",
        "crates/sectors/proofs/Laws/Moving.antt",
    ],
}


def read(path):
    with open(path, encoding="utf-8", newline="") as f:
        return f.read()


def is_turned(word):
    return re.match(r"[a-z]", word) and (re.search(r"[a-z0-9][A-Z]", word) or "-" in word)


def in_snake_case(word):
    word = re.sub(r"(?<=[a-z])(\d+[A-Z]+)$", lambda m: "_" + m[1].lower(), word)
    word = re.sub(r"(?<=[a-z0-9])([A-Z])", r"_\1", word)
    return word.lower().replace("-", "_")


def code_of(path, text):
    return COMMENT[path[path.rindex(".") :]].sub("", text)


def own(path):
    steps = path.split(".")
    return steps[0] == "Rattle" and steps[1] not in ("std", "core")


def table():
    """The new spelling of each name, and the files' tokens."""
    tokens, turned, foreign = {}, set(), set()
    for path in glob.glob("crates/**/*.antt", recursive=True) + glob.glob("crates/**/*.rt", recursive=True):
        code = code_of(path, read(path))
        tokens[path] = set(re.findall(NAME, code))
        for module, names in USE.findall(code):
            if not own(module):
                foreign.update(re.findall(NAME, names))
        if path.endswith(".antt") and not FUNCTION.search(path):
            turned.update(it for it in tokens[path] if is_turned(it))
    turned -= foreign
    definitions = {in_snake_case(it) for it in turned if "-" not in it}
    functions = {"bit_and", "bit_or"}
    new = {}
    for it in turned:
        name = in_snake_case(it)
        if "-" in it and (name in definitions | functions or any(it in ts and name in ts for p, ts in tokens.items() if not FUNCTION.search(p))):
            name += "_lem"
        new[it] = name
    return new


def turn_code(text, new):
    return re.sub(NAME, lambda m: new.get(m.group(), m.group()), text)


def turn_quoted(text, new):
    return re.sub(r"`([^`\n]*)`", lambda m: f"`{turn_code(m[1], new)}`", text)


def turn(path, text, new):
    comment = COMMENT.get(path[path.rindex(".") :])
    if comment is None:
        return turn_quoted(text, new)
    parts, at = [], 0
    for m in comment.finditer(text):
        parts += [turn_code(text[at : m.start()], new), turn_quoted(m.group(), new)]
        at = m.end()
    return "".join(parts + [turn_code(text[at:], new)])


def turn_edit(text, new):
    turned = []
    for line in text.split("\n"):
        head = line[:5]
        turned.append(head + turn_code(line[5:], new) if head in ("old: ", "new: ") else turn_quoted(line, new))
    return "\n".join(turned)


def write(path, text, was):
    if text != was:
        with open(path, "w", encoding="utf-8", newline="") as f:
            f.write(text)


def main():
    new = table()
    if not new:
        # a second run: what MET lists are definitions by now
        print("nothing to turn")
        return
    met = {it: f"{it}_lem" for it in MET}
    for path in sorted(glob.glob("crates/**/*.antt", recursive=True) + glob.glob("crates/**/*.rt", recursive=True)):
        text = read(path)
        here = {**{it: met[it] for it in MET if is_met(it, path, text)}, **new}
        write(path, turn(path, text, here), text)
    for path in sorted(glob.glob("crates/*/must-fail/*.edit")):
        text = read(path)
        write(path, turn_edit(text, new), text)
    for path in ["README.md", *sorted(glob.glob("docs/*.md")), "tests/README.md"]:
        text = read(path)
        write(path, turn_quoted(text, new), text)
    print(f"{len(new)} names")


def is_met(name, path, text):
    """Whether `name` is the lemma of MET here: where it is declared, or taken from there by a use line."""
    if path in MET[name]:
        return True
    module = ["Rattle." + ".".join(p[:-5].split("/")[1:]) for p in MET[name]]
    return any(m in module and name in re.findall(NAME, names) for m, names in USE.findall(text))


if __name__ == "__main__":
    sys.exit(main())
