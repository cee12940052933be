#!/usr/bin/env python3
"""Brings this repository's own names in specs/ and proofs/ to snake case (a fact to camel case).

Run once, at the top, right after the kit's port.py. It collects the names with a dash that the files of specs/ and
proofs/ define and respells them there, in the clauses of src/ and in docs. Names that Rattle makes (goals, steps) and
names of its library keep their spelling: a name behind a dot is respelled only if it is a field of a record here.
Functions of src/, strings, comments of src/, inputs and outputs stay as they are.
"""
import glob
import os
import re

ODD = {
    "In-every": "InEvery",
    "One-in-every": "OneInEvery",
    "getD-six": "get_or_six",
    "bit-and": "bit_of_and",
    "bit-or": "bit_of_or",
    "from-A": "from_a",
    "from-B": "from_b",
    "in-A": "in_a",
    "in-B": "in_b",
    "way-A": "way_a",
    "way-B": "way_b",
}
NAME = re.compile(r"[^\s(){};,.@«»\"|`]+")
DEFINED = re.compile(r"^(\s*)((?:(?:pub|abbrev|unfoldable|data|record)\s+)*)([^\s:(){}]+)\s*(?:[({].*)?:\s")


def antt_files():
    found = glob.glob("crates/*/specs/**/*.antt", recursive=True) + glob.glob("crates/*/proofs/**/*.antt", recursive=True)
    return sorted(p for p in found if "/out/" not in p)


def code_of(line):
    """The line without its comment, and the comment."""
    at = line.find("--")
    return (line, "") if at < 0 else (line[:at], line[at:])


def definitions():
    """Each own name with a dash, and whether it is a field of a record."""
    names, fields = set(), set()
    for path in antt_files():
        made = set()
        with open(path) as file:
            lines = file.read().split("\n")
        if os.path.basename(path) in ("Answers.antt", "Invariants.antt", "Choices.antt", "Given.antt"):
            made = {m[1] for line in lines if (m := re.match(r"\s*(?:abbrev )?pub (\S+)\s*:\s*(?:goal|given|need)\.", line))}
        inside = False
        for line in lines:
            code = code_of(line)[0]
            if re.match(r"\s*(pub |abbrev )*record\b.*where\s*$", code):
                inside = True
            elif code and not code[0].isspace() and not code.startswith("--"):
                inside = False
            m = DEFINED.match(code)
            if not m or code.strip().startswith(("let ", "use ", "mod ", "pub mod", "pub use")):
                continue
            name = m[3]
            if "-" not in name or name in made or not re.search("[a-z]", name):
                continue
            names.add(name)
            if inside and m[1]:
                fields.add(name)
    return names, fields


def respelled(text, names, fields):
    def turn(m):
        word = m[0]
        behind_dot = m.start() > 0 and text[m.start() - 1] == "."
        if word not in names or (behind_dot and word not in fields and not text[: m.start() - 1].endswith("}")):
            return word
        return ODD.get(word, word.replace("-", "_"))

    return NAME.sub(turn, text)


def rattle_source(text, names, fields):
    out = []
    for line in text.split("\n"):
        at = line.find("//")
        code, comment = (line, "") if at < 0 else (line[:at], line[at:])
        pieces = re.split(r'("(?:[^"\\]|\\.)*")', code)
        out.append("".join(p if p.startswith('"') else respelled(p, names, fields) for p in pieces) + comment)
    return "\n".join(out)


def page(text, names, fields):
    """In a page, only what stands between back quotes."""
    return re.sub(r"`[^`\n]+`", lambda m: respelled(m[0], names, fields), text)


def rewrite(path, turn, names, fields):
    with open(path) as file:
        text = file.read()
    turned = turn(text, names, fields)
    if turned != text:
        with open(path, "w") as file:
            file.write(turned)


def main():
    names, fields = definitions()
    for path in antt_files():
        rewrite(path, lambda t, n, f: "\n".join(respelled(c, n, f) + d for c, d in map(code_of, t.split("\n"))), names, fields)
    for path in sorted(glob.glob("crates/*/src/**/*.rt", recursive=True)):
        rewrite(path, rattle_source, names, fields)
    for path in ["README.md"] + sorted(glob.glob("docs/*.md")):
        rewrite(path, page, names, fields)
    print(f"{len(names)} names, {len(fields)} of them fields")


main()
