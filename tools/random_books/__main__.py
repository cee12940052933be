#!/usr/bin/env python3
"""Writes random part books, and compares what bookcheck says of them with other ways to judge them.

    python3 tools/random_books --short
    python3 tools/random_books --books 1000 --reasoners E,Konclude --page

docs/RANDOM_BOOKS.md says what is compared and how.
"""
import argparse
import sys
from concurrent.futures import ThreadPoolExecutor
from pathlib import Path

import first_order
import owl
import table
from compare import ERROR, NO_ANSWER, examine
from writing import KINDS, write

SEED = "part books"
# Looked for: its first 100 books are of every kind, and every refusal that a book can get is among them.
SHORT_SEED = "wooden weld"
PROGRAM = Path(__file__).parents[2] / "crates/bookcheck/out/bookcheck"
REASONERS = {reasoner.NAME: reasoner for reasoner in (first_order, owl)}

# What must be in a run of so many books or more: the least share of them that stand, clash and so on.
BALANCED = 1000
SHARES = {"stands": 0.3, "clash": 0.3, "word of 2 letters or more": 0.1, "key matters": 0.1, "refused": 0.1}


def options():
    words = argparse.ArgumentParser(prog="random_books", description="Compares bookcheck with other judges of books.")
    words.add_argument("--program", default=str(PROGRAM), help="the program that judges (%(default)s)")
    words.add_argument("--books", type=int, default=1000, help="how many books (%(default)s)")
    words.add_argument("--seed", help=f"what the random choices begin with ({SEED}; with --short {SHORT_SEED})")
    words.add_argument("--reasoners", default="", help="E, Konclude or both, with a comma; none if left out")
    words.add_argument("--short", action="store_true", help="100 books, the naive evaluation alone, and no tables")
    words.add_argument("--jobs", type=int, default=2, help="how many books at once (%(default)s)")
    words.add_argument("--page", action="store_true", help="write the tables into docs/RANDOM_BOOKS.md")
    words.add_argument("--hex", help="judge this book alone, given in hexadecimal; - reads it from standard input")
    chosen = words.parse_args()
    if chosen.short:
        chosen.books, chosen.reasoners = 100, ""
    if chosen.seed is None:
        chosen.seed = SHORT_SEED if chosen.short else SEED
    return chosen


def books(chosen):
    """The kind and the bytes of each book of the run."""
    if chosen.hex:
        return [("given", bytes.fromhex(sys.stdin.read() if chosen.hex == "-" else chosen.hex))]
    return [write(chosen.seed, number) for number in range(chosen.books)]


def run(chosen, reasoners):
    """Examines each book, and tells of each disagreement as it comes."""
    findings = []
    with ThreadPoolExecutor(chosen.jobs) as pool:
        for finding in pool.map(lambda book: examine(*book, chosen.program, reasoners), books(chosen)):
            findings.append(finding)
            for difference in finding.differences():
                print(f"DISAGREEMENT: book {len(findings) - 1}, {finding.kind}: {difference}")
            if finding.differences():
                print(f"  the book: {finding.data.hex()}", flush=True)
    return findings


def agreed(findings, reasoners):
    """The last line of a good run."""
    counts = [(kind, sum(finding.kind == kind for finding in findings)) for kind in KINDS + ["given"]]
    text = f"agreed on {len(findings)} of {len(findings)} books: "
    text += ", ".join(f"{kind} {count}" for kind, count in counts if count)
    for reasoner in reasoners:
        came = [outcome for finding in findings for outcome in finding.outcomes(reasoner.NAME)]
        text += f"; {reasoner.NAME}: {len(came)} questions, {came.count(NO_ANSWER)} without an answer, "
        text += f"{came.count(ERROR)} errors"
    return text


def lacking(findings):
    """What there is too little of in a run that is long enough."""
    counts = {name: sum(map(table.COUNTS[name], findings)) for name in SHARES}
    short = [f"{name} {counts[name]}" for name, share in SHARES.items() if counts[name] < share * len(findings)]
    return short if len(findings) >= BALANCED else []


def command(chosen):
    """The command that makes the run again."""
    words = f"python3 tools/random_books --books {chosen.books}"
    words += f" --seed '{chosen.seed}'" if chosen.seed != SEED else ""
    words += f" --reasoners {chosen.reasoners}" if chosen.reasoners else ""
    words += f" --program {chosen.program}" if chosen.program != str(PROGRAM) else ""
    return words + (" --page" if chosen.page else "")


def main():
    chosen = options()
    reasoners = [REASONERS[name] for name in filter(None, chosen.reasoners.split(","))]
    versions = [reasoner.version() for reasoner in reasoners]
    if None in versions:
        sys.exit(f"{reasoners[versions.index(None)].NAME} is not installed")
    if not Path(chosen.program).is_file():
        sys.exit(f"there is no program {chosen.program}")
    findings = run(chosen, reasoners)
    if not chosen.short and not chosen.hex:
        text = table.tables(findings, reasoners, versions, command(chosen))
        print(text)
        if chosen.page:
            table.write_page(text)
    differ = sum(bool(finding.differences()) for finding in findings)
    if differ:
        sys.exit(f"disagreement on {differ} of {len(findings)} books")
    if lacking(findings):
        sys.exit(f"too few books of some outcome: {', '.join(lacking(findings))}")
    print(agreed(findings, reasoners))


if __name__ == "__main__":
    main()
