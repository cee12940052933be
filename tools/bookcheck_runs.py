#!/usr/bin/env python3
"""Writes the runs of bookcheck in tests/runs: of each case the input, the output that it must have, and the status 0.

A case is pieces and lines. A piece is bytes, or text in hexadecimal. The lines of the output stand between ' / '."""

from pathlib import Path

top = Path(__file__).parent.parent
runs = top / "tests/runs"


def encoded(*pieces):
    return b"".join(bytes.fromhex(piece) if isinstance(piece, str) else piece for piece in pieces)


def book(name):
    return (top / "books" / name).read_bytes()


def rows(count):
    """So many lawful rows, no exclusion among them: every class from 0 on, four times, lies within class 63."""
    return b"".join(encoded("50 52 01", bytes([i // 4 % 64]), "3F 00 00 00 00 00") for i in range(count))


def facts(mark, count):
    """So many different lawful facts: the parts from 0 to 255 are in class 0, then in class 1, and so on."""
    return b"".join(encoded(mark, "01", bytes([i % 256, i // 256]), "00") for i in range(count))


def factory(count):
    return facts("50 46", count)


def site(count):
    return facts("50 53", count)


def leading(left, right, feature):
    return encoded("50 52 03", bytes([left, right, 1, feature, 0, 0, 0]))


def cycle(first, last, feature):
    """The classes from the first to the last, each of which leads by the feature to the next, and the last to the first."""
    return b"".join(leading(c, c + 1 if c < last else first, feature) for c in range(first, last + 1))


def letters(word):
    return "".join(f" {letter}" for letter in word)


# 0 leads by 0 to 1, 1 leads by 1 to 2, and no object is in 2
TWO_STEPS = "50 52 03 00 01 01 00 00 00 00  50 52 03 01 02 01 01 00 00 00  50 52 02 02 02 00 00 00 00 00"
# two parts of 0 that agree on feature 0 are one; 1 leads by 1 to 2, and no object is in 2
KEYED = "50 52 05 00 00 01 00 00 00 00  50 52 03 01 02 01 01 00 00 00  50 52 02 02 02 00 00 00 00 00"
# parts 1 and 2 are in 0; part 2 is in 1; part 1 has value 9 by feature 0 and value 5 by feature 1
KEYED_PARTS = "50 46 01 01 00 00  50 46 01 02 00 00  50 46 01 02 01 00  50 46 02 01 00 09  50 46 02 01 01 05"
RULE = "50 52 01 00 01 00 00 00 00 00"
FACTORY = "50 46 01 07 00 00"
SITE = "50 53 01 08 00 00"

CASES = {
    # books
    "empty": [[], "rules 0 / facts 0 / stands"],
    "five-records": [[book("implied.book"), FACTORY], "rules 4 / facts 1 / clash part 7 row 3 word"],
    "carousel": [[book("carousel.book")], "rules 9 / facts 13 / stands"],
    "coaster": [[book("coaster.book")], "rules 20 / facts 21 / stands"],
    "coaster-mistake": [[book("coaster-mistake.book")], "rules 20 / facts 21 / clash part 5 row 18 word 0 0"],
    # clashes
    "two-steps": [[TWO_STEPS, "50 46 01 00 00 00"], "rules 3 / facts 1 / clash part 0 row 2 word 0 1"],
    "two-steps-told": [
        [TWO_STEPS, "50 46 01 00 00 00  50 53 02 00 00 05"],
        "rules 3 / facts 2 / clash part 5 row 2 word 1",
    ],
    "key": [[KEYED, KEYED_PARTS, "50 53 02 02 00 09"], "rules 3 / facts 6 / clash part 5 row 2 word"],
    "key-untold-value": [[KEYED, KEYED_PARTS], "rules 3 / facts 5 / clash part 2 row 2 word 1"],
    "word-of-all-letters": [
        [b"".join(leading(c, c + 1, c) for c in range(16)), "50 52 02 10 10 00 00 00 00 00", "50 46 01 00 00 00"],
        "rules 17 / facts 1 / clash part 0 row 16 word 0 1 2 3 4 5 6 7 8 9 10 11 12 13 14 15",
    ],
    # cycles of 31 and 33 classes: the first word that leads to the last class of both has 31 * 33 - 1 letters
    "word-of-1022": [
        [cycle(0, 30, 15), cycle(31, 63, 15), "50 52 02 1E 3F 00 00 00 00 00", "50 46 01 00 00 00  50 53 01 00 1F 00"],
        "rules 65 / facts 2 / clash part 0 row 64 word" + letters([15] * 1022),
    ],
    # kinds
    "row-kind-0": [[RULE, "50 52 00 00 01 00 00 00 00 00", RULE], "refused 1 record 1"],
    "factory-kind-4": [[RULE, FACTORY, "50 46 04 08 00 00", SITE], "refused 1 record 2"],
    "site-kind-4": [[RULE, FACTORY, SITE, "50 53 04 09 00 00"], "refused 1 record 3"],
    # classes below 64
    "class-63": [
        [
            "50 52 01 00 3F 00 00 00 00 00  50 52 02 3F 3E 00 00 00 00 00",
            "50 46 01 FF 3F 00  50 53 01 FE 3F 00  50 53 01 FF 3E 00",
        ],
        "rules 2 / facts 3 / clash part 255 row 1 word",
    ],
    "class-64-left": [["50 52 01 40 00 00 00 00 00 00"], "refused 2 record 0"],
    "class-64-right": [[RULE, RULE, "50 52 01 00 40 00 00 00 00 00", RULE], "refused 2 record 2"],
    "class-64-factory": [[RULE, RULE, FACTORY, "50 46 01 08 40 00", SITE], "refused 2 record 3"],
    # the site fact that is listed already is a record, too
    "class-64-site": [[RULE, FACTORY, "50 53 01 07 00 00  50 53 01 08 40 00"], "refused 2 record 3"],
    # features below 16
    "feature-15": [
        [
            "50 52 03 00 01 01 0F 00 00 00  50 52 02 01 01 00 00 00 00 00",
            "50 46 01 07 00 00  50 46 02 03 0F 04  50 53 02 05 0F 06",
        ],
        "rules 2 / facts 3 / clash part 7 row 1 word 15",
    ],
    "feature-16-row": [["50 52 03 00 01 01 10 00 00 00"], "refused 3 record 0"],
    "feature-16-factory": [["50 46 02 07 10 00"], "refused 3 record 0"],
    "feature-16-site": [[FACTORY, "50 53 02 07 10 00"], "refused 3 record 1"],
    # the features of a row
    "feature-unused-not-0": [["50 52 01 00 01 00 01 00 00 00"], "refused 4 record 0"],
    # the features of a key
    "key-of-0": [["50 52 05 00 00 00 00 00 00 00"], "refused 4 record 0"],
    "key-feature-twice": [["50 52 05 00 00 02 01 01 00 00"], "refused 4 record 0"],
    "key-of-4": [["50 52 05 00 00 04 00 01 02 0F"], "rules 1 / facts 0 / stands"],
    "key-of-5": [["50 52 05 00 00 05 00 01 02 0F"], "refused 4 record 0"],
    # the rows of a book
    "rows-256": [[rows(256)], "rules 256 / facts 0 / stands"],
    "rows-257": [[rows(257)], "refused 5 record 256"],
    "rows-257-cut": [[rows(256), "50 52 01 00 01 00 00 00 00"], "refused 12 record 256"],
    "rows-257-wrong-count": [[rows(256), "50 52 01 00 01 01 00 00 00 00"], "refused 4 record 256"],
    # the site facts that are not listed already
    "site-64": [[site(64)], "rules 0 / facts 64 / stands"],
    "site-65": [[site(65)], "refused 6 record 64"],
    "site-65-cut": [[site(64), "50 53 01 40 00"], "refused 12 record 64"],
    "site-65-third-number": [[site(64), "50 53 03 00 01 01"], "refused 4 record 64"],
    "site-64-and-listed": [
        ["50 46 01 FF 3F 00  50 53 01 FF 3F 00", site(64), "50 53 01 00 00 00  50 53 01 FF 3F 00"],
        "rules 0 / facts 65 / stands",
    ],
    # bytes of the input
    "bytes-32766": [[rows(255), factory(5036)], "rules 255 / facts 5036 / stands"],
    "bytes-32767": [[rows(256), factory(5034), "50 46 01"], "refused 12 record 5290"],
    "bytes-32768": [[rows(254), factory(5038)], "refused 15 record 0"],
    "bytes-32769": [[bytes(32769)], "refused 15 record 0"],
    # facts that are listed already
    "factory-twice": [[RULE, FACTORY, "50 46 01 08 00 00", FACTORY], "refused 14 record 3"],
    "factory-twice-cut": [[FACTORY, "50 46 01 07 00"], "refused 12 record 1"],
    "factory-twice-third-number": [[FACTORY, "50 46 01 07 00 01"], "refused 4 record 1"],
    "site-twice": [[FACTORY, "50 53 01 07 00 00", SITE, SITE], "rules 0 / facts 2 / stands"],
    # marks
    "rule-after-factory": [[RULE, FACTORY, RULE], "refused 13 record 2"],
    "rule-after-site": [[RULE, SITE, "50 52 09 40 40 09 10 10 10 10"], "refused 13 record 2"],
    "factory-after-site": [[FACTORY, SITE, "50 46 01 09 00 00"], "refused 13 record 2"],
    "unknown-mark": [[RULE, FACTORY, SITE, "50 54 01 07 00 00"], "refused 13 record 3"],
    "unknown-mark-alone": [["51 52"], "refused 13 record 0"],
    # records that are not whole
    "lone-byte": [["50"], "refused 12 record 0"],
    "lone-byte-at-end": [[RULE, FACTORY, SITE, "0A"], "refused 12 record 3"],
    "rule-cut": [[RULE, "50 52 09 00 01 00 00 00 00"], "refused 12 record 1"],
    "rule-cut-after-factory": [[FACTORY, "50 52"], "refused 13 record 1"],
    "factory-cut": [[RULE, "50 46 09 07 00"], "refused 12 record 1"],
    "site-cut": [[FACTORY, "50 53"], "refused 12 record 1"],
    # two faults in one record, and in two
    "row-kind-and-class": [["50 52 06 40 40 00 00 00 00 00"], "refused 1 record 0"],
    "row-class-and-feature": [["50 52 03 00 40 01 10 00 00 00"], "refused 2 record 0"],
    "row-feature-and-count": [["50 52 05 00 00 05 00 01 02 10"], "refused 3 record 0"],
    "row-feature-not-in-use": [["50 52 03 00 01 00 10 00 00 00"], "refused 4 record 0"],
    "factory-kind-and-third-number": [["50 46 00 07 40 01"], "refused 1 record 0"],
    "site-class-and-third-number": [["50 53 01 07 40 01"], "refused 2 record 0"],
    "two-records": [[RULE, "50 52 03 00 01 02 00 01 00 00  50 52 00 00 01 00 00 00 00 00"], "refused 4 record 1"],
}

for name, (pieces, output) in CASES.items():
    path = runs / f"bookcheck-{name}"
    path.with_suffix(".in").write_bytes(encoded(*pieces))
    path.with_suffix(".out").write_text(output.replace(" / ", "\n") + "\n")
    path.with_suffix(".status").write_text("0\n")
