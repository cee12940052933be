#!/usr/bin/env python3
"""Counts the instructions of sealing full books of 256 rows, of the densest searches, of telling and reading 5,000 facts,
and of judging hard books, and writes docs/COSTS.md.

Run it from the repository's root after `rt ci`, which builds the program; it needs valgrind.
"""
import os
import random
import re
import subprocess
import tempfile

from hard_books import BOOKS

PROGRAM = "crates/costs/out/costs"
PAGE = "docs/COSTS.md"
ROWS = 256


def row(kind, left, right, feature=0):
    featured = kind in (3, 4)
    return bytes([0x50, 0x52, kind, left, right, int(featured), feature if featured else 0, 0, 0, 0])


def filled(rows):
    """The rows, and the last of them again until there are 256."""
    return b"".join((rows + [rows[-1]] * ROWS)[:ROWS])


def chain(order):
    return filled([row(1, i, i + 1) for i in order])


def scattered(kinds, features, seed):
    pick = random.Random(seed)
    return filled([row(pick.choice(kinds), pick.randrange(64), pick.randrange(64), pick.randrange(features)) for _ in range(ROWS)])


def cascade(features):
    """Class 63 gains one class after another, each because it gained the one before, and every class leads to it."""
    rows = [row(1, 63, 0)]
    rows += [row(4, i, i + 1, i % features) for i in range(62)]
    rows += [row(3, 63, 63, f) for f in range(features)]
    rows += [row(3, i % 64, 63, i // 64 % features) for i in range(ROWS - len(rows))]
    return filled(rows)


SEALINGS = [
    ("no rule says anything of classes (256 exclusions)", filled([row(2, 0, 1)])),
    ("one chain of 63 kind 1 rows, lowest class first", chain(range(63))),
    ("the same chain, highest class first", chain(reversed(range(63)))),
    ("256 random rows of kind 1", scattered([1], 1, 1)),
    ("256 random rows of kinds 3 and 4, one feature", scattered([3, 4], 1, 2)),
    ("256 random rows of kinds 1, 3 and 4, two features", scattered([1, 3, 4], 2, 3)),
    ("256 random rows of kinds 1, 3 and 4, sixteen features", scattered([1, 3, 4], 16, 4)),
    ("a cascade of 62 pull-backs, one feature", cascade(1)),
    ("a cascade of 62 pull-backs, three features", cascade(3)),
]


def cycle(classes):
    """The classes lie within one another, and lead by every feature to one another; class 63 is reached by none."""
    rows = [row(1, c, (c + 1) % classes) for c in range(classes)]
    return rows + [row(3, 0, 0, f) for f in range(16)] + [row(2, 63, 0)]


def one_start(classes):
    """Class 0 lies within no other, but leads by every feature into the cycle of the others."""
    rows = [row(1, c, c + 1 if c < classes else 1) for c in range(1, classes + 1)]
    return rows + [row(3, c, 1, f) for f in range(16) for c in (0, 1)] + [row(2, 63, 0)]


def counters():
    """Two cycles of 31 and 33 classes over one feature, both begun by class 0, whose last classes exclude each other."""
    rows = [row(3, c, c + 1 if c < 30 else 0) for c in range(31)]
    rows += [row(3, c, c + 1 if c < 63 else 31) for c in range(31, 64)]
    return rows + [row(1, 0, 31), row(2, 30, 63)]


SEARCHES = [
    ("63 classes within one another, every two of them a source", filled(cycle(63))),
    ("one class that leads into 62 classes within one another", filled(one_start(62))),
    ("cycles of 31 and 33 classes over one feature", filled(counters())),
]


def facts(count):
    """So many different facts of kind 2, as factory records."""
    return b"".join(bytes([0x50, 0x46, 2, n // 16 % 256, n % 16, n // 4096]) for n in range(count))


def repeated(count):
    """The same facts, and the last of them again and again."""
    return (facts(count) + facts(count)[-6:] * 5000)[: 6 * 5000]


STORES = [
    ("tell", "5,000 different facts told to a row store", facts(5000)),
    ("tell", "one fact told 5,000 times", repeated(1)),
    ("sound", "the sound part of an image of 5,000 records", facts(5000)),
    ("sound", "the sound part of an image that repeats its 4,999th fact", repeated(4999)),
]


def instructions(book, what, times):
    with tempfile.NamedTemporaryFile() as out:
        command = ["valgrind", "--tool=callgrind", f"--callgrind-out-file={out.name}", PROGRAM, what, str(times)]
        run = subprocess.run(command, input=book, capture_output=True, check=True)
    return int(re.search(r"Collected : (\d+)", run.stderr.decode()).group(1))


def each(book, what, more=10):
    """What one more time costs."""
    return (instructions(book, what, 1 + more) - instructions(book, what, 1)) // more


def table(books, what, less):
    """The cost of one thing beyond another, book by book."""
    rows = []
    for name, book in books:
        cost = each(book, what) - each(book, less)
        print(f"{cost:>14,}  {name}", flush=True)
        rows.append(f"| {name} | {cost:,} |")
    return ["| book | instructions |", "|---|---:|"] + rows + [""]


def stores_table():
    rows = []
    for what, name, records in STORES:
        cost = each(records, what)
        print(f"{cost:>14,}  {name}", flush=True)
        rows.append(f"| {name} | {cost:,} |")
    return ["| what | instructions |", "|---|---:|"] + rows + [""]


def shipped(name):
    with open(f"books/{name}.book", "rb") as book:
        return book.read()


EXAMPLES = [(f"`books/{name}.book`", shipped(name)) for name in ("carousel", "coaster", "coaster-mistake")]


def judging_table():
    rows = []
    for name, book in EXAMPLES + BOOKS:
        judging, auditing = each(book, "judge", 1), each(book, "audit", 1)
        print(f"{judging:>14,} {auditing:>14,}  {name}", flush=True)
        rows.append(f"| {name} | {len(book):,} | {judging:,} | {auditing:,} |")
    return ["| book | bytes | judging | an audit |", "|---|---:|---:|---:|"] + rows + [""]


def main():
    kit = subprocess.run(["rt", "version"], capture_output=True, text=True, check=True).stdout.split()[0]
    lines = [
        "# What sealing, searching, storing and judging cost",
        "",
        f"Instructions, counted by `valgrind --tool=callgrind` and written by `tools/measure.py`, of the program that {kit} builds. A count is the same on every run of the same binary.",
        "",
        "## Sealing a full book of 256 rows",
        "",
        "Reading and sealing, less reading alone. The cascades are the hardest books that we know: a class grows 62 times, and all that lead to it are looked at each time.",
        "",
    ]
    lines += table(SEALINGS, "seal", "read")
    lines += [
        "## Asking whether class 0 is possible",
        "",
        "Reading, sealing and asking, less reading and sealing. These are the densest graphs of pairs that we know, and the longest word.",
        "",
    ]
    lines += table(SEARCHES, "ask", "seal")
    lines += [
        "## Telling facts, and reading an image",
        "",
        "Each fact is compared with all that are listed before it, so the cost grows with the square of their number; a comparison costs a few instructions.",
        "",
    ]
    lines += stores_table()
    lines += [
        "## Judging",
        "",
        "Reading all records, sealing, completing and searching, in all, for books of at most 32,767 bytes; and an audit, which also writes the report. Beside the books that ship here there are those of `tools/hard_books.py`: a typical one, and the hardest that we know of several kinds. Of a full book some 60 million go to comparing each fact with those before it.",
        "",
    ]
    lines += judging_table()
    os.makedirs("docs", exist_ok=True)
    with open(PAGE, "w") as page:
        page.write("\n".join(lines))


if __name__ == "__main__":
    main()
