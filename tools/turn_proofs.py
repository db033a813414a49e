#!/usr/bin/env python3
"""Turns old proofs of functions into what Rattle reads today: of each `proofs/F/Proof.antt` an Invariants.antt and an Answers.antt.

usage: turn_proofs.py NAMES CRATE..     at the top of the repository, after the kit's port.py and tools/respell.py,
                                        where NAMES is the folder that `rt names NAMES` wrote

An old proof is tied: it answers `tie.Need-X` with an equation over a context `c`. The last step of the code is `c.STEP`, the one before it
`c.before.STEP`, and clauses are nested pairs. Today the answer's type is `goal.X`, each step is `c.STEP`, and clauses are records by name.
NAMES says how goals, steps and places of the code are called today; the names of clauses are read off the contracts.

It goes by text. Answers that only search are dropped, since Rattle searches by itself, and so is the proof's last equation. A lemma or an
abbreviation of the file over a context is put where it is used. A Proof.antt that is turned goes (git keeps it). For each function a line
tells what was written and, after `left:`, what is to be done by hand. Nothing is proved here: `rt check` decides.
"""

import collections
import glob
import json
import os
import re
import sys

NAME = r'[^\s(){}.;,@"«»]+'
WORD = r'[^\s(){};,@"«»]+'  # a name with its fields
FIELD = r'(?:\.[^\s(){}.;,@"«»]+)'
# where a name begins that is no field, and no part of a longer name
APART = r"(?<![\w.\-])"
BRACKET = {**dict.fromkeys("({[", 1), **dict.fromkeys(")}]", -1)}
# The context of an answer as long as its term is worked on. Were it `c` at once, then a path that comes with a lemma, turned already,
# would be turned again as a path of the answer.
CONTEXT = "\ue000"

WORDS = r"(?:(?:abbrev|pub|unfoldable) )*"
DECLARED = re.compile(rf"{WORDS}{NAME}(?: {NAME})* :(?= |$)|module |(?:pub )?(?:record|data) ")
SCOPED = re.compile(rf"λ ([^.]*?)\. |[(){{}}]|\.?{NAME}|\s+|.", re.S)
LET_GIVEN = re.compile(rf"let ({NAME}) = ({NAME}{FIELD}*\.given) in\s*")
LET_OR_PATH = re.compile(rf"let ({NAME}) = ({NAME})((?:\.before)+) in(?:\n *|\s)|{APART}({NAME})({FIELD}+)")
LET_OR_NAME = re.compile(rf'let ({NAME}) = ({NAME})((?:\.before)*) in\b|(?<![^\s(){{}};,@"«»])({NAME})(?=\s)')
LAST_IN = re.compile(r"[({\[)}\]]| in(?=[ \n]|\Z)")
# `if !f(x)` says `f(x) ≡ false` by itself today
NOT_OF_RESULT = re.compile(
    rf"not-(?:true|false) (?:[^\s(){{}};,]*\.result|\([^()]*\.result\)) ({CONTEXT}\.if-not-[^\s(){{}};,]*\.(?:true|false))"
)
SINGLE = re.compile(r"(?<=[\s(])\(([a-zA-Z][\w-]*)\)(?=[\s);,.])")

Item = collections.namedtuple("Item", "name lines text")
# a lemma or an abbreviation of the old file over a context, by the name that its equation gives the context
Local = collections.namedtuple("Local", "variable type term unfolding is_data")


def read(path):
    with open(path, encoding="utf-8") as f:
        return f.read()


def goal_key(name):
    """An old goal's name, however the file and NAMES spell it."""
    return re.sub(r"^overflow-", "", name.replace("_", "-"))


def step_key(name):
    """A step's name, however the file, NAMES and tools/respell.py spell it."""
    return re.sub(r"_lem$", "", name.replace("-", "_").lower())


def place_key(name):
    return name.replace("_", "-").lower()


def names_in(folder):
    """What `rt names` wrote, by the module of each function."""
    names = {}
    for path in glob.glob(f"{folder}/crates/*/names.json"):
        names.update(json.loads(read(path)))
    return names


def clauses_in_sources():
    """The names of the clauses of each function's contract ('' where one has none), by the function's path."""
    clauses = {}
    for path in glob.glob("crates/*/src/**/*.rt", recursive=True):
        crate, module = re.match(r"crates/(\w+)/src/(.*)\.rt", path).groups()
        steps = [crate] if module in ("lib", "main") else [crate, *module.split("/")]
        code = re.sub(r"//[^\n]*", "", read(path))
        for name, contract in re.findall(r'(?m)^ *(?:pub )?(?:extern "C" )?fn (\w+)((?s:.*?))^ *\{', code):
            kinds = {kind: re.findall(rf"(?m)^ *{kind}(?: (\w+))? \{{", contract) for kind in ("requires", "ensures")}
            clauses["::".join([*steps, name])] = kinds
    return clauses


def ones(path):
    """How many pairs deep a path goes before it takes a first half."""
    return next((n for n, step in enumerate(path) if step != "1"), len(path))


def by_clause(clauses, path):
    """The path into nested pairs of clauses, by the clause's name."""
    if len(clauses) < 2:
        return path
    n = min(ones(path), len(clauses) - 1)
    if n == len(clauses) - 1:
        return [clauses[n], *path[n:]]
    return [clauses[n], *path[n + 1 :]] if path[n : n + 1] == ["0"] else path


def split_at_commas(text):
    parts, depth = [""], 0
    for ch in text:
        depth += BRACKET.get(ch, 0)
        if ch == "," and depth == 0:
            parts.append("")
        else:
            parts[-1] += ch
    parts = [it.strip() for it in parts]
    return parts if parts[-1] else parts[:-1]


def halves(term, count):
    """The `count` parts of nested pairs, None where the term is none."""
    if count == 1:
        return [term]
    if not (term.startswith("(") and term.endswith(")")):
        return None
    parts = split_at_commas(term[1:-1])
    if len(parts) == 2 < count:
        rest = halves(parts[1], count - 1)
        return rest and [parts[0], *rest]
    return parts if len(parts) == count else None


def as_record(term, clauses):
    """The nested pairs that stand behind the lets of a term as a record by clause, None where there are none."""
    depth, end = 0, 0
    for m in LAST_IN.finditer(term):
        depth += BRACKET.get(m[0], 0)
        if m[0] == " in" and depth == 0:
            end = m.end()
    parts = halves(term[end:].strip(), len(clauses))
    if parts is None:
        return None
    fields = "".join(f"      {clause} = {part};\n" for clause, part in zip(clauses, parts))
    return f"{term[:end]} record {{\n{fields}    }}"


def replaced(text, new):
    """`text` with `new[x]` for each name `x` that no λ binds."""
    parts, depth, bound = [], 0, []
    for m in SCOPED.finditer(text):
        word = m[0]
        if m[1] is not None:
            bound.append((depth, re.findall(NAME, re.sub(r":[^)]*\)", "", m[1]))))
        elif word in ("(", "{"):
            depth += 1
        elif word in (")", "}"):
            depth -= 1
            bound = [it for it in bound if it[0] <= depth]
        elif word in new and not any(word in names for _, names in bound):
            word = new[word]
        parts.append(word)
    return "".join(parts)


def argument_at(text, at):
    """The argument that begins behind the spaces at `at`, and its end."""
    start = re.compile(r"\s*").match(text, at).end()
    if text[start : start + 1] != "(":
        m = re.compile(f"(?:{WORD})?").match(text, start)
        return m[0], m.end()
    depth = 0
    for m in re.compile(r"[()]").finditer(text, start):
        depth += BRACKET[m[0]]
        if depth == 0:
            return text[start : m.end()], m.end()
    return "", start


class Function:
    """A function by its names, for the terms of its old proof. A place of the code goes by its index in NAMES."""

    def __init__(self, crate, path, names, clauses):
        self.path = "::".join([crate, *path.split("/")])
        self.names = names
        self.clauses = clauses
        self.locals = {}
        self.left = []
        places = names["places"]
        self.place_of_name = {place_key(old): n for n, (old, *_) in enumerate(places)}
        self.parents = [None if it[1] is None else self.place_of_name[place_key(it[1])] for it in places]
        self.goals = {goal_key(old): new for old, new in names["needs"]}
        for old, new in names["needs"]:
            if goal_key(old).startswith("part-"):
                self.goals["slice-bounds-" + goal_key(old)[len("part-") :]] = new
        self.place_of_goal = {new: self.place_of_name[place_key(at[0])] for (_, new), at in zip(names["needs"], names["asked_at"])}
        self.loops = {
            goal_key(old): (new, variables, changed) for ((old, new), variables), changed in zip(names["loops"], names["changed"])
        }

    def leave(self, what):
        if what not in self.left:
            self.left.append(what)

    def clauses_of(self, path, kind):
        return self.clauses.get(path, {}).get(kind, [])

    def upward(self, place):
        while place is not None:
            yield place
            place = self.parents[place]

    def up(self, place, befores):
        """The place that so many `.before` lead to."""
        for _ in range(befores.count(".before")):
            place = place if self.parents[place] is None else self.parents[place]
        return place

    def context(self, place, goal):
        """An earlier context as a whole. A lemma has no goal to take it from: there every context is the answer's."""
        return f"(goal.at.{goal} {CONTEXT}).{self.names['places_by_name'][place]}" if goal else CONTEXT

    def turned_path(self, place, fields, goal):
        """What a context at `place` has under the old path `fields`."""
        befores, fields = re.match(r"((?:\.before(?![^.]))*)(.*)", fields).groups()
        before = self.up(place, befores)
        if not fields:
            return self.context(before, goal)
        first, *rest = fields[1:].split(".")
        if first == "args":
            found = [first, *rest]
        elif first == "requires":
            found = [first, *by_clause(self.clauses_of(self.path, first), rest)]
        else:
            # what does not stand above the place that the path leads to is looked for from the context's own
            looked = (look(start, first, rest) for start in (before, place) for look in (self.in_arm, self.of_step))
            found = next(filter(None, looked), None)
            if found is None:
                self.leave(f"no step `{first}` at {self.names['places'][place][0]}")
                found = [first, *rest]
        return ".".join([CONTEXT, *found])

    def in_arm(self, start, step, path):
        """What the arm of a match names by itself."""
        for place in self.upward(start):
            if arm := self.names["arms"][place]:
                fits = [(at, new) for new, old, at in arm[2] if step_key(old) == step_key(step) and path[: len(at)] == at]
                at, new = max(fits, key=lambda it: len(it[0]), default=([], None))
                if at or (fits and not path):
                    return [arm[0], new, *path[len(at) :]]
        return None

    def of_step(self, start, step, path):
        for place in self.upward(start):
            _, _, (old, new), callee, *_ = self.names["places"][place]
            if step_key(old) == step_key(step):
                if callee and path[:1] == ["new"] and path[1:2] and path[1].isdigit():
                    path = self.by_parameter(callee, path)
                if callee and path[:1] == ["ensures"]:
                    path = ["ensures", *by_clause(self.clauses_of(callee, "ensures"), path[1:])]
                return [new, *path]
        return None

    def by_parameter(self, callee, path):
        """`new.1.0`, what a call leaves of its second borrow, by the parameter's name."""
        parameters, n = self.names["params"].get(callee, []), ones(path[1:])
        if path[n + 1 : n + 2] == ["0"] and n < len(parameters):
            return ["new", parameters[n], *path[n + 2 :]]
        self.leave(f"`{'.'.join(path)}` of `{callee}`")
        return path

    def turned_paths(self, text, place, goal, variable):
        """`text` with today's paths, where `variable` is a context at `place`."""
        # how an arm names a part of what is matched shows only in the whole path
        while m := LET_GIVEN.search(text):
            text = text[: m.start()] + re.sub(APART + re.escape(m[1]) + r"(?=\.)", m[2], text[m.end() :])
        contexts = {variable: place}

        def turned(m):
            let, of, befores, name, fields = m.groups()
            if let and of in contexts:
                contexts[let] = self.up(contexts[of], befores)
                return ""
            return self.turned_path(contexts[name], fields, goal) if name in contexts else m[0]

        text = LET_OR_PATH.sub(turned, text)
        del contexts[variable]
        for name, earlier in contexts.items():
            text = re.sub(APART + re.escape(name) + r"(?! =)(?=[\s);,])", self.context(earlier, goal), text)
        return NOT_OF_RESULT.sub(r"\1", text)

    def place_of(self, argument, contexts):
        """The place of the context that a local is given, None where it is none."""
        while argument.startswith("(") and argument.endswith(")"):
            argument = argument[1:-1].strip()
        if m := re.fullmatch(rf"({NAME})((?:\.before)*)", argument):
            return self.up(contexts[m[1]], m[2]) if m[1] in contexts else None
        m = re.match(rf"({NAME}) (.*)", argument, re.S)
        if not m or m[1] not in self.locals:
            return None
        local, place = self.locals[m[1]], self.place_of(m[2].strip(), contexts)
        return None if place is None else self.place_of(local.term, {local.variable: place})

    def with_locals(self, text, contexts, lemmas):
        """`text` with what the file itself defines over a context put where it is used; `lemmas` gets what is to be a let."""
        contexts, parts, at = dict(contexts), [], 0
        while m := LET_OR_NAME.search(text, at):
            let, of, befores, name = m.groups()
            word, end = m[0], m.end()
            if let and of in contexts:
                contexts[let] = self.up(contexts[of], befores)
            elif name in self.locals:
                argument, behind = argument_at(text, end)
                place = self.place_of(argument, contexts)
                if place is None:
                    self.leave(f"`{name} {argument}`")
                else:
                    word, end = self.put_in(name, place, lemmas), behind
            parts += [text[at : m.start()], word]
            at = end
        return "".join(parts) + text[at:]

    def put_in(self, name, place, lemmas):
        """What stands for a local where it is used: what it abbreviates, or its name, by a let at the head of the answer."""
        local = self.locals[name]

        def here(text):
            text = self.with_locals(text, {local.variable: place}, lemmas)
            return self.turned_paths(text, place, None, local.variable).strip()

        if local.is_data:
            term = here(local.term)
            return f"({term})" if re.search(r"\s", term) else term
        if name not in lemmas:
            lemmas[name] = (here(local.type), here(local.term), local.unfolding)
        return name


def split(text):
    """The comment at the head of a proof, its use lines and its items: each a declaration with its equations and the comment above it.

    An equation with a `let x : T` in its first line counts as a declaration: such an answer stays as it is, and its goal is left.
    """
    lines = text.split("\n")
    head = next(n for n, line in enumerate(lines) if not line.startswith("--"))
    uses, items, above = [], [], []
    rest = iter(lines[head:])
    for line in rest:
        if line.startswith(("use ", "unfoldable use")):
            while "{" in line and "}" not in line:
                line += "\n" + next(rest)
            uses.append(line)
        elif line.startswith("--"):
            above.append(line)
        elif not line.strip():
            if items:
                items[-1].append(line)
        elif DECLARED.match(line) or not items:
            items.append([*above, line])
            above = []
        else:
            items[-1] += [*above, line]
            above = []
    return lines[:head], uses, [item_of(it) for it in items]


def item_of(lines):
    first = next(it for it in lines if not it.startswith("--"))
    return Item(re.match(f"{WORDS}({NAME})?", first)[1] or "", lines, "\n".join(lines).rstrip("\n"))


def comments_of(item):
    return [it for it in item.lines if it.startswith("--")]


def unfoldings_in(text):
    return re.findall(r"(?m)^unfolding .*$", text)


def tied(item, what):
    """The match for the item's type, if that is of the tie and fits `what`."""
    return re.search(rf"(?m)^(?:pub |abbrev )*{re.escape(item.name)} : tie\.{what}", item.text)


def on_one_line(text):
    return re.sub(r"\s+", " ", re.sub(r"--[^\n]*", "", text)).strip()


def local_of(item, function):
    """The item as a lemma or an abbreviation over a context, None where it is none that can be put elsewhere."""
    name = re.escape(item.name)
    over = r"(?:\(\w+ : tie\.([^\s(){}]+)[^)]*\)|tie\.([^\s(){}]+)(?: invariant-loop decreases-loop)?)"
    equation = rf"{name} (\S+)((?: [^\s=]+)*) =(?=\s)(.*)$"
    m = re.search(rf"^(?:abbrev |pub )*{name} : {over}\s*→(.*?)^(?:unfolding ([^\n]*)\n)?{equation}", item.text, re.S | re.M)
    if not m or re.search(r"tie\.(Need-|close|invariant|decreases)", item.text.split("=")[0]):
        return None
    named, bare, type_, unfolding, variable, parameters, term = m.groups()
    if place_key(named or bare) not in function.place_of_name or "where" in term.split():
        function.leave(f"`{item.name}` over {named or bare}")
        return None
    type_, term = on_one_line(type_), on_one_line(term)
    if parameters:
        term = f"λ{parameters}. {term}"
    # an abbreviation under a comment becomes a let, as a lemma does
    is_data = item.name[0].isupper() or item.text.startswith("abbrev")
    return Local(variable, type_, term, (unfolding or "").split(), is_data)


def invariant(item, function, kind, loop):
    """The invariant or measure of a loop. The old one took all variables as they were at first, then anew those that the loop changes."""
    if goal_key(loop) not in function.loops:
        function.leave(f"`{item.name}`: no such loop")
        return None
    new, variables, changed = function.loops[goal_key(loop)]
    m = re.search(rf"(?m)^{re.escape(item.name)} (.*?) =(?=\s)((?s:.*))", item.text)
    arguments = m[1].split()
    now = [variable for variable, is_changed in zip(variables, changed) if is_changed]
    if len(arguments) != len(variables) + len(now):
        function.leave(f"`{item.name}` has {len(arguments)} arguments, for {len(variables)} variables and {len(now)} changed ones")
    fields = ["l.initial." + variable if variable in now else "l." + variable for variable in variables]
    fields += ["l." + variable for variable in now]
    name = f"{kind}-{new}"
    head = [*comments_of(item), f"abbrev pub {name} : goal.{name}", *unfoldings_in(item.text[: m.start()])]
    return "\n".join([*head, f"{name} l ={replaced(m[2], dict(zip(arguments, fields)))}"])


def clauses_asked(function, old, new):
    """The names of the clauses that a goal asks for, none where it asks for one fact."""
    if asked := function.names["asked"].get(new):
        return asked
    clauses = []
    if m := re.match(r"(.*)-requires(?:-\d+)?$", old):
        callees = [it for it in function.names["params"] if it.split("::")[-1] == step_key(m[1])]
        clauses = function.clauses_of(callees[0], "requires") if len(callees) == 1 else []
    elif old.startswith("returns"):
        clauses = function.clauses_of(function.path, "ensures")
    return clauses if len(clauses) > 1 else []


def answer(item, function, old):
    """The answer to the goal that was `Need-OLD`, None where Rattle needs none."""
    m = re.search(rf"(?m)^{re.escape(item.name)} (\S+)(?: κs)? =(?=\s)((?s:.*))", item.text)
    if m and m[2].strip() == "search rules":
        return None
    new = function.goals.get(goal_key(old))
    if not m or not new:
        function.leave(f"`{item.name}`: no {'such goal' if m else 'equation'}")
        return None
    variable, term = m.groups()
    place, lemmas = function.place_of_goal[new], {}
    term = function.with_locals(term, {variable: place}, lemmas)
    term = function.turned_paths(term, place, new, variable)
    unfolding = unfoldings_in(item.text)
    if lemmas:
        lets = "".join(f"    let {name} : {type_} = {lemma} in\n" for name, (type_, lemma, _) in lemmas.items())
        term = f"\n{lets}    {term.strip()}"
        opened = [it for _, _, names in lemmas.values() for it in names]
        if opened:
            unfolding = ["unfolding " + " ".join(dict.fromkeys([*" ".join(unfolding[:1]).split()[1:], *opened]))]
    if clauses := clauses_asked(function, old, new):
        record = as_record(term, clauses)
        if record is None:
            function.leave(f"`{new}` by its clauses {', '.join(clauses)}")
        term = record or term
    return "\n".join([*comments_of(item), f"pub {new} : goal.{new}", *unfolding, f"{new} c ={term}"])


def kept(item, function):
    """An item that stays one, with today's name of the place that it stands over."""
    m = re.search(r"\((\w+) : tie\.([^\s(){}]+)[^)]*\)", item.text)
    if not m:
        return item.text
    place = function.place_of_name.get(place_key(m[2]))
    if place is None:
        function.leave(f"`{item.name}` over {m[2]}")
        return item.text
    text = item.text.replace("tie." + m[2], "goal." + function.names["places_by_name"][place])
    return function.turned_paths(text.replace("invariant-loop decreases-loop", ""), place, None, m[1])


def turned_items(items, function):
    """The invariants and the answers of a proof's items."""
    function.locals = {it.name: local for it in items if (local := local_of(it, function))}
    invariants, answers = [], []
    for item in items:
        if "tie.close" in item.text or item.name.endswith(("-spec", "_spec")):
            continue
        if m := tied(item, r"(invariant|decreases)-(\S+)"):
            invariants.append(invariant(item, function, *m.groups()))
        elif m := tied(item, r"Need-(\S+)"):
            answers.append(answer(item, function, m[1]))
        elif item.name not in function.locals:
            answers.append(kept(item, function))
    answers = [SINGLE.sub(r"\1", it.replace(CONTEXT, "c")) for it in answers if it]
    return [it for it in invariants if it], answers


def write(path, head, module, items):
    if items:
        with open(path, "w", encoding="utf-8") as f:
            f.write("\n".join([*head, f"use {module} as goal", "", ""]) + "\n\n".join(it.rstrip() for it in items) + "\n")


def turn(crate, path, names, clauses):
    """Turns the proof of a function, and says what was written and what is left."""
    folder = f"crates/{crate}/proofs/{path}"
    module = path.replace("/", ".")
    text = read(f"{folder}/Proof.antt")
    known = names.get(f"Rattle-{crate}-proofs.{module}.Lts")
    if not known or "Tie as tie" not in text:
        return "left: the whole proof, " + ("it is not tied" if known else "NAMES does not have the function")
    function = Function(crate, path, known, clauses)
    head, uses, items = split(text)
    invariants, answers = turned_items(items, function)
    head = [it for it in head if not it.startswith("-- Assumes nothing")]
    head += [it for it in uses if not any(old in it for old in (".Statement.{statement}", ".Tie as tie", "Tie.{"))]
    write(f"{folder}/Invariants.antt", head, f"Rattle.{crate}.proofs.{module}.Given", invariants)
    write(f"{folder}/Answers.antt", head, f"Rattle.{crate}.proofs.{module}.Goals", answers)
    os.remove(f"{folder}/Proof.antt")
    left = "; left: " + ", ".join(function.left) if function.left else ""
    return f"{len(invariants)} invariants, {len(answers)} answers{left}"


def main(folder, *crates):
    names, clauses = names_in(folder), clauses_in_sources()
    for crate in crates:
        for proof in sorted(glob.glob(f"crates/{crate}/proofs/**/Proof.antt", recursive=True)):
            path = re.match(r"crates/\w+/proofs/(.*)/Proof.antt", proof)[1]
            print(f"{crate}/{path}: {turn(crate, path, names, clauses)}")


if __name__ == "__main__":
    if len(sys.argv) < 3:
        sys.exit(__doc__)
    main(*sys.argv[1:])
