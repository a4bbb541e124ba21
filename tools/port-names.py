#!/usr/bin/env python3
"""Brings the repository's own definitions and lemmas to today's spelling: words in snake case, facts and types in upper camel case.
Run once, after port.py, at the top of the repository:

    python3 tools/port-names.py [--report]

It collects the names that the .antt files of crates/*/specs and crates/*/proofs define, and respells those that have a capital within
or a dash, wherever they stand as a whole word: in .antt and .rt files (not in strings), in must-fail edits, and between backticks in
README.md and docs/. Names of src/, of the library and of what Rattle generates are not touched. With --report it changes nothing and
lists what would fall together."""
import collections
import glob
import os
import re
import sys

# Names that are facts, and names that would fall together with another of the same module or of one that it is used beside.
CHOSEN = {
    "slowLog": "SlowLog",
    "notAWord": "not_a_word",
    "bit-and": "bit-bit_and",
    "bit-or": "bit-bit_or",
    "counted-down": "counted_down_lem",
    "found-there": "found_there_lem",
    "port-exists": "port_is_there",
    "well-ports": "well_ports_lem",
    "at-end": "at_the_end",
}
# The same, in files where port.py had respelled the one of two names that now stands for the other.
CHOSEN_IN = {
    "crates/devices/specs/Register/Laws.antt": {"no_register": "no_register_lem"},
    "crates/bus/proofs/route/Refusing.antt": {"runs_past": "runs_past_lem"},
}

ANTT = sorted(glob.glob("crates/*/specs/**/*.antt", recursive=True) + glob.glob("crates/*/proofs/**/*.antt", recursive=True))
RT = sorted(glob.glob("crates/*/src/**/*.rt", recursive=True))
EDITS = sorted(glob.glob("crates/*/must-fail/**/*.edit", recursive=True))
PAGES = ["README.md"] + sorted(glob.glob("docs/**/*.md", recursive=True)) + ["examples/README.md", "tests/model/README.md"]

DEFINED = re.compile(
    r"^( *)((?:abbrev |unfoldable |pub |record |data |ruleset )*)([^\s:(){}\[\],;.\"`]+)(?: \S.*?)?(?: :( .*)?|:|:$| where| =.*)$")
# What Rattle itself names in a proof file.
GENERATED = re.compile(r"^(returns|invariant|decreases|Inv|loop|overflow|bounds)([-_].*)?$")


def snake(name):
    if name in CHOSEN:
        return CHOSEN[name]
    name = re.sub(r"(?<=[a-z0-9])(?=[A-Z])", "_", name).lower()
    name = name.replace("-", "_")
    return re.sub(r"(?<=[a-z])(?=[0-9]+(_|$))", "_", name)


def wants(name):
    return re.match(r"\+?[a-z]", name) and (re.search(r"[a-z0-9][A-Z]", name) or re.search(r"[A-Za-z0-9]-[A-Za-z0-9]", name))


def read(path):
    with open(path, encoding="utf-8", newline="") as file:
        return file.read()


def collect():
    where = collections.defaultdict(set)
    every = collections.defaultdict(set)
    for path in ANTT:
        for line in read(path).split("\n"):
            found = DEFINED.match(line)
            if not found or line.lstrip().startswith(("--", "use ", "mod ", "pub mod", "unfolding ")):
                continue
            indent, kind, name, kept = found.groups()
            if not kind and " : " not in line and not line.rstrip().endswith(" :"):
                continue
            if os.path.basename(path) == "Proof.antt" and not name.endswith("-spec") and (
                    GENERATED.match(name) or re.search(r"\b(tie|claims|goal|walk)\.", kept or "")):
                continue
            every[name].add(path)
            if wants(name):
                where[name].add(path)
    return where, every


WORD = re.compile(r"[^\s(){}\[\],;.:\"`«»λ|]+")


# What a file takes from the library.
LIBRARY = re.compile(r"^ *(?:pub )?use (?!Rattle\.(?:" + "|".join(sorted(os.listdir("crates"))) + r")\.).*$", re.M)


def respelled(text, names):
    return WORD.sub(lambda word: names.get(word.group(), word.group()), text)


ATOM = r"(?:\((?:[^()]|\((?:[^()]|\([^()]*\))*\))*\)|[\w.']+)"
EQUAL = re.compile(r"(?<![\w'.-])eqb (" + ATOM + r") (" + ATOM + r")(?: (≡))?")
TESTS = {"ltb": "nat_lt", "leb": "nat_le"}


def tests(text):
    """Of a file of definitions: the tests of numbers by the words of clauses."""
    def bare(atom):
        inner = atom[1:-1]
        return inner if atom[0] == "(" and re.fullmatch(r"[\w.' ]+( [%/*+-] [\w.']+)?", inner) else atom
    def infix(found):
        test = f"{bare(found.group(1))} == {bare(found.group(2))}"
        return f"({test}) ≡" if found.group(3) else test
    lines = []
    for line in text.split("\n"):
        if line.startswith("use Rattle.std.specs.Prelude."):
            line = re.sub(r"(?<=[{ ])eqb(?=[,}])", "◌==◌", line)
        elif not line.lstrip().startswith("--"):
            line = EQUAL.sub(infix, line)
        lines.append(respelled(line, TESTS))
    return "\n".join(lines)


def edit(text, names):
    """A must-fail edit: what port.py does to a line of a file of definitions, and the names."""
    lines, file = [], ""
    for line in text.split("\n"):
        if line.startswith("file: "):
            file = line[len("file: "):]
        elif line.startswith(("old:", "new:")):
            if file.endswith(".antt"):
                line = re.sub(r"\((\w+) \.(\w+)\)", r"\1.\2", line)
                line = re.sub(r"(?<=[\w)]) \.(?=\w)", ".", line)
                for old, new in (("getD", "slice_index_or"), ("needs", "rules"), ("bitAnd", "bit_and"), ("bitOr", "bit_or")):
                    line = re.sub(rf"\b{old}\b", new, line)
                line = tests(line)
            elif "⌜" in line:
                line = re.sub(r"\{ λ r\. ⌜ (.*) ⌝ \}", lambda fact: "{ " + re.sub(r"\br\b", "result", fact.group(1)) + " }", line)
                line = re.sub(r"(?<=[\w)]) \.(?=\w)", ".", line)
            line = respelled(line, names)
        lines.append(line)
    return "\n".join(lines)


def page(text, names):
    return re.sub(r"`[^`\n]+`", lambda span: respelled(span.group(), names), text)


if __name__ == "__main__":
    where, every = collect()
    names = {name: snake(name) for name in where}
    # What port.py respelled, for the edits and the pages, which it leaves as they were.
    for name in sorted(every):
        for old in (name.replace("_", "-"), re.sub(r"_(\w)", lambda letter: letter.group(1).upper(), name)):
            if old != name and old not in every:
                names.setdefault(old, name)
    changed = 0
    for path in ANTT + RT + EDITS + [page for page in PAGES if os.path.exists(page)]:
        text = read(path)
        if path.endswith(".antt"):
            of_library = set(WORD.findall(" ".join(LIBRARY.findall(text))))
            own = {old: new for old, new in names.items() if old in where and old not in of_library}
            new = respelled(text, {**own, **CHOSEN_IN.get(path, {})})
            if re.fullmatch(r"crates/\w+/specs/\w+\.antt", path):
                new = tests(new)
        elif path.endswith(".rt"):
            new = "\n".join(respelled(line, {o: n for o, n in names.items() if o in where}) for line in text.split("\n"))
        elif path.endswith(".edit"):
            new = edit(text, names)
        else:
            new = page(text, names)
        if new != text:
            with open(path, "w", encoding="utf-8", newline="") as file:
                file.write(new)
            changed += 1
    print(f"{len(where)} names respelled, {changed} files changed")
