#!/usr/bin/env python3
"""Writes the books of books/ from the records that stand here, in hexadecimal: rules, factory facts, site facts.

What follows a # is left out. The book that the check of bookask runs on is written beside that program too."""

from pathlib import Path

# docs/EXAMPLE_BOOKS.md has the numbers of classes, features and parts
CAROUSEL = """
    50 52 01 01 00 00 00 00 00 00  # 0: a horse is a seat
    50 52 01 02 00 00 00 00 00 00  # 1: a bench is a seat
    50 52 03 00 05 01 02 00 00 00  # 2: the sweep of a seat is a sweep
    50 52 03 00 06 01 04 00 00 00  # 3: the belt of a seat is a belt
    50 52 03 01 03 01 00 00 00 00  # 4: the crank of a horse is a crank
    50 52 04 03 01 01 00 00 00 00  # 5: what has a crank as its crank is a horse
    50 52 03 03 04 01 01 00 00 00  # 6: the gear of a crank is a gear
    50 52 05 00 00 02 02 03 00 00  # 7: two seats with the same sweep and the same ring are one seat
    50 52 02 01 02 00 00 00 00 00  # 8: no horse is a bench
    50 46 01 0A 03 00  # part 10 is a crank
    50 46 02 14 00 0A  # the crank of part 20 is part 10
    50 46 02 14 02 01  # the sweep of part 20 is part 1
    50 46 02 14 03 06  # the ring of part 20 is part 6
    50 46 01 15 01 00  # part 21 is a horse
    50 46 02 15 02 01  # the sweep of part 21 is part 1
    50 46 02 15 03 05  # the ring of part 21 is part 5
    50 46 01 16 02 00  # part 22 is a bench
    50 46 02 16 02 02  # the sweep of part 22 is part 2
    50 46 02 16 03 06  # the ring of part 22 is part 6
    50 53 01 17 00 00  # part 23 is a seat
    50 53 02 17 02 01  # the sweep of part 23 is part 1
    50 53 02 17 03 06  # the ring of part 23 is part 6
    50 53 01 15 01 00  # part 21 is a horse, as the factory says
"""

COASTER = """
    50 52 01 02 01 00 00 00 00 00  # 0: a station is a stop block
    50 52 01 05 01 00 00 00 00 00  # 1: a brake run is a stop block
    50 52 01 01 00 00 00 00 00 00  # 2: a stop block is a block
    50 52 01 03 00 00 00 00 00 00  # 3: a lift is a block
    50 52 01 04 00 00 00 00 00 00  # 4: a free run is a block
    50 52 01 06 00 00 00 00 00 00  # 5: a storage track is a block
    50 52 03 00 00 01 00 00 00 00  # 6: the next block of a block is a block
    50 52 03 02 03 01 00 00 00 00  # 7: the next block of a station is a lift
    50 52 03 03 04 01 00 00 00 00  # 8: the next block of a lift is a free run
    50 52 03 04 05 01 00 00 00 00  # 9: the next block of a free run is a brake run
    50 52 03 05 02 01 00 00 00 00  # 10: the next block of a brake run is a station
    50 52 03 06 02 01 00 00 00 00  # 11: the next block of a storage track is a station
    50 52 03 01 07 01 01 00 00 00  # 12: the brake of a stop block is a hold brake
    50 52 04 07 01 01 01 00 00 00  # 13: what has a hold brake as its brake is a stop block
    50 52 04 09 03 01 02 00 00 00  # 14: what has a chain drive as its drive is a lift
    50 52 03 07 0A 01 03 00 00 00  # 15: the air of a hold brake is a compressor
    50 52 05 07 07 02 03 04 00 00  # 16: two hold brakes with the same air and the same outlet are one brake
    50 52 02 04 01 00 00 00 00 00  # 17: no free run is a stop block
    50 52 02 02 03 00 00 00 00 00  # 18: no station is a lift
    50 52 02 07 08 00 00 00 00 00  # 19: no hold brake is a trim brake
    50 46 01 01 02 00  # part 1 is a station
    50 46 01 04 05 00  # part 4 is a brake run
    50 46 01 05 06 00  # part 5 is a storage track
    50 46 02 01 00 02  # the next block of part 1 is part 2
    50 46 02 02 00 03  # the next block of part 2 is part 3
    50 46 02 03 00 04  # the next block of part 3 is part 4
    50 46 02 04 00 01  # the next block of part 4 is part 1
    50 46 01 14 09 00  # part 20 is a chain drive
    50 46 02 02 02 14  # the drive of part 2 is part 20
    50 46 02 01 01 0A  # the brake of part 1 is part 10
    50 46 02 04 01 0B  # the brake of part 4 is part 11
    50 46 02 03 01 0C  # the brake of part 3 is part 12
    50 46 01 0C 08 00  # part 12 is a trim brake
    50 46 02 0A 03 1E  # the air of part 10 is part 30
    50 46 02 0A 04 1F  # the outlet of part 10 is part 31
    50 46 02 0B 03 1E  # the air of part 11 is part 30
    50 46 02 0B 04 20  # the outlet of part 11 is part 32
    50 53 01 03 04 00  # part 3 is a free run
    50 53 01 0D 07 00  # part 13 is a hold brake
    50 53 02 0D 03 1E  # the air of part 13 is part 30
    50 53 02 0D 04 1F  # the outlet of part 13 is part 31
    50 53 02 04 00 01  # the next block of part 4 is part 1, as the factory says
"""

BOOKS = {
    # what the rules imply makes class 0 impossible
    "implied.book": """
        50 52 03 00 01 01 00 00 00 00
        50 52 01 01 02 00 00 00 00 00
        50 52 04 02 03 01 00 00 00 00
        50 52 02 00 03 00 00 00 00 00
    """,
    # along feature 0 class 0 leads to 2 and class 1 to 3, which exclude each other; part 4 is in 0, and is part 9
    "paths.book": """
        50 52 03 00 02 01 00 00 00 00
        50 52 03 01 03 01 00 00 00 00
        50 52 02 02 03 00 00 00 00 00
        50 46 01 04 00 00
        50 53 03 04 09 00
    """,
    # the second site fact names a class that is none
    "refused-site.book": """
        50 52 01 01 02 00 00 00 00 00
        50 46 01 04 01 00
        50 53 01 05 01 00
        50 53 01 05 40 00
    """,
    # the second factory fact repeats the first
    "repeated-fact.book": """
        50 46 01 04 01 00
        50 46 01 04 01 00
    """,
    "carousel.book": CAROUSEL,
    "coaster.book": COASTER,
    # the crew meant part 3 and typed 05: part 5, the storage track, is told to be a free run
    "coaster-mistake.book": COASTER.replace("50 53 01 03 04 00", "50 53 01 05 04 00"),
}


def encoded(text):
    return bytes.fromhex(" ".join(line.split("#")[0] for line in text.splitlines()))


top = Path(__file__).parent.parent
for name, records in BOOKS.items():
    (top / "books" / name).write_bytes(encoded(records))
(top / "crates/bookask/data/paths.book").write_bytes(encoded(BOOKS["paths.book"]))
