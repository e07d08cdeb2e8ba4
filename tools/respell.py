#!/usr/bin/env python3
"""Brings the repository's own definitions and lemmas to the spelling of today's Rattle: words in snake case.

usage: tools/respell.py [--list]     at the top of a checkout, once, right after the kit's port.py

Types, facts and modules keep their capital letters. A name that Rattle makes, as a goal's, keeps its spelling, and so do
the names of src/, strings, inputs and outputs. It stops, and writes nothing, where two names would fall together.
"""

import glob
import re
import sys

NAME = r"[^\s(){}\[\].,;:λ⟨⟩«»\"`]+"
DECLARED = re.compile(r"\s*(?:(?:abbrev|unfoldable|pub|record|data|axiom)\s+)*(" + NAME + r")(?: \([^:]*:.*\)| \{[^:]*:.*\})* :(?:\s|$)")


def antt():
    return sorted(glob.glob("crates/*/specs/**/*.antt", recursive=True) + glob.glob("crates/*/proofs/**/*.antt", recursive=True))


def of_function(path):
    """A proof of one function: its folder, or one below it, has a Proof.antt, whose names are mostly Rattle's."""
    return path.endswith("/Proof.antt")


def snake(name):
    parts = re.split(r"[-_]", name)
    turned = []
    for i, part in enumerate(parts):
        if part[:1].isupper():
            turned.append(part)
        else:
            turned.append(re.sub(r"(?<=[a-z0-9'])([A-Z])", lambda m: "_" + m.group(1).lower(), part))
    return "_".join(turned)


def needs(name):
    if "-" in name.strip("-") and re.fullmatch(r"[\w'?₀₁₂₃₄₅₆₇₈₉-]+", name):
        return True
    return bool(re.match(r"[a-z]\w*?[a-z0-9][A-Z]", name)) and "_" not in name


def declared():
    own, local = set(), set()
    for path in antt():
        for line in open(path, encoding="utf-8"):
            m = DECLARED.match(line)
            if m and not of_function(path):
                own.add(m.group(1))
            # names bound inside a term, in camel case
            for t in re.findall(NAME, line.split("--")[0]):
                if re.fullmatch(r"[a-z][a-z0-9]*(?:[A-Z][a-z0-9]*)+[₀₁₂']*", t):
                    local.add(t)
    return own | local


def of_the_kit(text):
    """Names that a file imports from the kit, or from what Rattle makes."""
    crates = {p.split("/")[1] for p in glob.glob("crates/*/src")}
    names = set()
    for path, brought in re.findall(r"^\s*(?:ghost )?use ([^{\n;]*?)\.\{([^}]*)\}", text, re.M):
        parts = path.split(".")
        if parts[0] != "Rattle" or parts[1] not in crates or parts[-1] in ("Tie", "Goals", "Given", "Statement"):
            names |= set(re.findall(NAME, brought))
    return names


def turn_antt(text, table):
    kit = of_the_kit(text)
    table = {n: t for n, t in table.items() if n not in kit}
    return re.sub(NAME, lambda m: table.get(m.group(0), m.group(0)), text)


def turn_rt(text, table):
    out = []
    for line in text.split("\n"):
        code, mark, rest = line.partition("//")
        pieces = re.split(r'("(?:[^"\\]|\\.)*")', code)
        pieces = [p if p.startswith('"') else turn_antt(p, table) for p in pieces]
        out.append("".join(pieces) + mark + turn_ticked(rest, table))
    return "\n".join(out)


def turn_ticked(text, table):
    return re.sub(r"`[^`\n]*`", lambda m: turn_antt(m.group(0), table), text)


def respelled(own):
    """Old name to new. A lemma that would have its function's name gets `_lem`."""
    table = {n: snake(n) for n in own if needs(n)}
    words = {table[n] for n in table if "-" not in n}
    for n in own:
        if "-" in n and n in table and (table[n] in words or table[n] in own):
            table[n] += "_lem"
        elif n in words:
            table[n] = n + "_lem"
    return table


def main():
    table = respelled(declared())
    if "--list" in sys.argv:
        for n in sorted(table):
            print(n, table[n])
        return 0
    sources = sorted(glob.glob("crates/*/src/**/*.rt", recursive=True))
    back, bad = {}, []
    for old, new in table.items():
        if new in back:
            bad.append(f"{old} and {back[new]} both become {new}")
        back[new] = old
    for path in antt():
        text = open(path, encoding="utf-8").read()
        words = set(re.findall(NAME, re.sub(r"--.*", "", text)))
        for w in sorted(words & back.keys() - table.keys()):
            if back[w] in words and not of_function(path):
                bad.append(f"{path}: {back[w]} becomes {w}, which stands there already")
    for path in sources:
        text = open(path, encoding="utf-8").read()
        words = set(re.findall(NAME, text))
        for w in re.findall(r"\b([a-z_0-9]+):(?!:)", text):
            if back.get(w) in words:
                bad.append(f"{path}: {back[w]} becomes {w}, which would be hidden by a parameter or a field")
    if bad:
        print("\n".join(sorted(set(bad))))
        return 1
    plain = {n: t for n, t in table.items() if not (n + "_lem" == t and "-" not in n)}
    for path in antt():
        text = open(path, encoding="utf-8").read()
        new = turn_antt(text, plain if of_function(path) else table)
        if of_function(path):
            for n in table.keys() - plain.keys():
                new = re.sub(r"(?<![\w.-])" + re.escape(n) + r"(?![\w.'-])", table[n], new)
        if new != text:
            open(path, "w", encoding="utf-8").write(new)
    for path in sources:
        text = open(path, encoding="utf-8").read()
        new = turn_rt(text, plain)
        if new != text:
            open(path, "w", encoding="utf-8").write(new)
    print(f"{len(table)} names")
    return 0


if __name__ == "__main__":
    raise SystemExit(main())
