#!/usr/bin/env python3
"""Counts, for docs/DESIGN-PASS.md, the places in src/ (and for point 8 in proofs/) of each of its points, and lists them.

    tools/places.py [--list] [REPOSITORY]

A count is of a pattern, and a pattern finds too much or too little; the page says which places it leaves as they are, and why.
"""
import collections
import pathlib
import re
import sys

args = [a for a in sys.argv[1:] if a != "--list"]
listed = "--list" in sys.argv
root = pathlib.Path(args[0] if args else ".")
sources = {p: p.read_text() for p in sorted(root.glob("crates/*/src/*.rt"))}
proofs = {p: p.read_text() for p in sorted(root.glob("crates/*/proofs/**/*.antt"))}


def lines(pattern, files=sources):
    """The lines of code that have the pattern; a line of imports or comments has none."""
    passed = re.compile(r"^\s*(//|--|ghost use|use |pub use)")
    found = []
    for path, text in files.items():
        for n, line in enumerate(text.splitlines(), 1):
            if re.search(pattern, line) and not passed.match(line):
                found.append(f"{path.relative_to(root)}:{n}: {line.strip()}")
    return found


def functions():
    """Of each function its file, its name and its text from `fn` to the brace that opens its body."""
    for path, text in sources.items():
        for m in re.finditer(r"^ *(?:pub )?(?:extern \"C\" )?fn (\w+).*?^ *\{$|^ *(?:pub )?fn (\w+)[^\n]*\{$", text, re.S | re.M):
            yield path.parts[-3], m.group(1) or m.group(2), m.group(0)


def shared_facts():
    """The facts that the `requires` of three functions or more state, by their first word or, of a comparison, whole."""
    where = collections.defaultdict(set)
    for crate, name, head in functions():
        for clause in re.findall(r"requires(?: \w+)? \{(.*?)\}\n", head + "\n", re.S):
            for fact in " ".join(clause.split()).split(" × "):
                word = re.match(r"\(?([A-Z]\w+)", fact.strip())
                where[word.group(1) if word else fact.strip()].add(f"{crate}::{name}")
    return [f"{fact}: {', '.join(sorted(w))}" for fact, w in sorted(where.items()) if len(w) >= 3]


POINTS = [
    ("1 enums of one's own", lines(r"^(pub )?enum ")),
    ("1 a flag with values beside it", lines(r"^\s*(pub )?refusal: u8,")),
    ("1 numbers of refusals", lines(r"^    pub const [A-Z_]+: u(8|64) = (\d|1\d|2[0-4]);$", {
        p: t for p, t in sources.items() if re.search(r"^impl Refusal \{\n    pub const", t, re.M)})),
    ("1 kinds, tags and outcomes as numbers", lines(r"\b(kind|tag|outcome|raised): u8")),
    ("2 loops over the rows of a word", lines(r"while left != 0")),
    ("3 loops with `while`", lines(r"^\s*while ")),
    ("4 conversions by functions of our own", lines(r"\b(widen|widen64|narrow)\(|\bsets::bit\(|byte_test::bit\(")),
    ("5 facts that three contracts or more ask for", shared_facts()),
    ("6 tables lent beside their length or one another", lines(r"\b(offsets|plan|starts|ancestors|marks|probed|gathered|table): &(mut )?\[")),
    ("7 pointers to functions, closures, dyn", lines(r"\bfn\(|\bdyn |\bFn(Mut|Once)?\(")),
    ("8 idle bindings", lines(r"\blet [\w-]+ = c in", proofs)),
    ("8 answers", lines(r"^pub [\w-]+ : goal\.", {p: t for p, t in proofs.items() if p.name == "Answers.antt"})),
]

for name, found in POINTS:
    print(f"{len(found):4} {name}")
    for place in found if listed else []:
        print(f"       {place}")
