"""Hard legal books of rules and facts, and a typical one, as records of at most 32,767 bytes."""
import itertools
import random

ROOM = 32767
PARTS = 256


def row(kind, left, right, *features):
    return bytes([0x50, 0x52, kind, left, right, len(features)] + list(features) + [0] * (4 - len(features)))


def within(left, right):
    return row(1, left, right)


def leads(left, feature, right):
    return row(3, left, right, feature)


def pulls(feature, left, right):
    return row(4, left, right, feature)


def key(left, right, *features):
    return row(5, left, right, *features)


def in_class(part, number):
    return bytes([0x50, 0x46, 1, part, number, 0])


def value(part, feature, other):
    return bytes([0x50, 0x46, 2, part, feature, other])


def one(part, other):
    return bytes([0x50, 0x46, 3, part, other, 0])


def book(rows, facts):
    """The rows, at most 256, and as many of the facts as there is room for, none twice."""
    text = b"".join(rows[:256])
    return text + b"".join(list(dict.fromkeys(facts))[: (ROOM - len(text)) // 6])


def ring(classes):
    """Each of the classes lies within all others."""
    return [within(c, (c + 1) % classes) for c in range(classes)]


def key_rows(count, classes, last):
    """Keys of three features that many parts agree on, and of one that no two do."""
    triples = list(itertools.combinations([f for f in range(16) if f != last], 3))
    return [key(i % classes, i // classes % classes, *triples[i], last) for i in range(count)]


def ride():
    """Forty rows and 300 facts on frames, cars, wheels and brakes."""
    pick = random.Random(7)
    rows = [within(c, c // 2) for c in range(2, 14)]
    rows += [leads(c, c % 6, c + 4) for c in range(2, 12)]
    rows += [pulls(c % 6, c + 1, c + 10) for c in range(1, 9)]
    rows += [row(2, c, 30) for c in range(20, 25)]
    rows += [key(c, c, c % 6, (c + 1) % 6) for c in range(2, 7)]
    facts = [in_class(p, pick.randrange(2, 14)) for p in range(100)]
    facts += [value(p, pick.randrange(6), pick.randrange(120)) for p in range(100) for _ in range(2)]
    return book(rows[:40], facts[:299] + [one(3, 4)])


def pairs_in_turn(step, keys):
    """Every two parts are joined by a key because the two before were, along the parts or against them."""
    parts = list(range(PARTS))[::step]
    facts = [one(parts[0], parts[1])] + [in_class(p, 0) for p in parts]
    facts += [value(parts[i], 0, parts[i - 2]) for i in range(2, PARTS)]
    facts += [value(p, 15, p) for p in parts]
    facts += [value(p, f, 128) for p in parts for f in range(1, 15)]
    return book([key(0, 0, 0)] + key_rows(keys, 1, 15), facts)


def falling_leader(step, classes, keys):
    """Parts are joined to one another by a key, one at a time, and all name the part that is joined next."""
    parts = list(range(PARTS))[::step]
    rows = [key(0, 0, 0)] + (ring(classes) if classes > 1 else []) + key_rows(keys, classes, 15)
    facts = [one(parts[0], parts[1])] + [in_class(p, 0) for p in parts]
    facts += [value(parts[i], 0, parts[i - 1]) for i in range(1, PARTS)]
    facts += [value(p, f, parts[0]) for p in parts for f in range(1, 15)]
    facts += [value(p, 15, p) for p in parts]
    return book(rows, facts)


def growing_classes(step, features, back):
    """Every part gains one class after another, each because a part that is looked at before it did."""
    rows = [pulls(back(c) % features, c, c + 1) for c in range(63)]
    rows += [leads(c, (back(c) + 1) % features, c) for c in range(63)]
    facts = [in_class(0 if step < 0 else 255, 0)]
    facts += [value(p, f, (p + step * (1 + f // 4)) % PARTS) for p in range(PARTS) for f in range(16)]
    return book(rows, facts)


def all_alike(classes, keys, same):
    """Every part has all classes and all values, and agrees with the others by all features but the last."""
    rows = (ring(classes) if classes > 1 else []) + key_rows(keys, classes, 15)
    facts = [in_class(p, 0) for p in range(PARTS)]
    facts += [value(p, f, 0 if same else p // 16) for p in range(PARTS) for f in range(15)]
    facts += [value(p, 15, p) for p in range(PARTS)]
    return book(rows, facts)


def all_joined(rows):
    """Every part has the same values, and each of the keys joins all of them."""
    triples = list(itertools.combinations(range(15), 4))
    facts = [in_class(p, 0) for p in range(PARTS)]
    facts += [value(p, f, 255) for p in range(PARTS) for f in range(15)]
    return book([key(0, 0, *triples[i]) for i in range(rows)], facts)


def long_word(everywhere):
    """Two cycles of 31 and 33 classes over one feature, both begun by class 0, whose last classes exclude each other."""
    rows = [leads(c, 0, c + 1 if c < 30 else 0) for c in range(31)]
    rows += [leads(c, 0, c + 1 if c < 63 else 31) for c in range(31, 64)]
    facts = [in_class(p, 0) for p in range(PARTS if everywhere else 1)]
    return book(rows + [within(0, 31), row(2, 30, 63)], facts + ([value(p, 0, p + 1) for p in range(255)] if everywhere else []))


def dense_search():
    """Every part is in 63 classes within one another, and they lead by every feature to one another."""
    rows = ring(63) + [leads(0, f, 0) for f in range(16)] + [row(2, 63, 0)]
    return book(rows, [in_class(p, 0) for p in range(PARTS)] + [value(p, f, (p * 7 + f) % PARTS) for p in range(PARTS) for f in range(16)])


def halves(keys):
    """Parts are joined two by two, then these, and so on, by keys one after another; all have values among them."""
    pick = random.Random(3)
    rows = [key(0, 0, 0)] + key_rows(keys, 1, 15)
    facts = [in_class(p, 0) for p in range(PARTS)]
    order = [(a, a + size // 2) for size in (2, 4, 8, 16, 32, 64, 128, 256) for a in range(0, PARTS, size)]
    facts += [one(a, b) for a, b in order[:1]]
    facts += [value(b, 0, a) for a, b in order[1:]] + [value(a, 0, b) for a, b in order[:-1]]
    facts += [value(p, f, pick.randrange(PARTS)) for p in range(PARTS) for f in range(1, 15)]
    facts += [value(p, 15, p) for p in range(PARTS)]
    return book(rows, facts)


def random_book(seed, rows, classes, kinds, facts):
    """Random rows of the kinds and random facts."""
    pick = random.Random(seed)
    counts = {1: 0, 2: 0, 3: 1, 4: 1}
    lines = []
    for _ in range(rows):
        kind = pick.choice(kinds)
        count = counts.get(kind, 0) or (pick.randrange(2, 5) if kind == 5 else 0)
        lines.append(row(kind, pick.randrange(classes), pick.randrange(classes), *pick.sample(range(16), count)))
    said = [in_class(pick.randrange(PARTS), pick.randrange(classes)) for _ in range(facts // 4)]
    said += [value(pick.randrange(PARTS), pick.randrange(16), pick.randrange(PARTS)) for _ in range(facts - facts // 4)]
    return book(lines, said)


BOOKS = [
    ("a ride: 40 rows and 300 facts", ride()),
    ("128 joins by a key, each after the one before, along the parts", pairs_in_turn(1, 0)),
    ("the same against the parts, beside 255 keys that nothing meets", pairs_in_turn(-1, 255)),
    ("255 joins by a key against the parts, each renaming all values", falling_leader(-1, 1, 0)),
    ("the same with 255 keys that nothing meets", falling_leader(-1, 1, 255)),
    ("the same with 64 classes and 191 keys", falling_leader(-1, 64, 191)),
    ("joins two by two in turn, among 255 keys", halves(255)),
    ("classes one at a time, along the parts", growing_classes(1, 16, lambda c: c)),
    ("classes one at a time, against the parts", growing_classes(-1, 16, lambda c: 62 - c)),
    ("256 keys of one class that all but one feature meets", all_alike(1, 256, True)),
    ("192 keys of 64 classes that all but one feature meets", all_alike(64, 192, True)),
    ("256 keys of one class, with few candidates", all_alike(1, 256, False)),
    ("256 keys, each of which joins all parts", all_joined(256)),
    ("the longest word", long_word(False)),
    ("the longest word, sought from 256 parts", long_word(True)),
    ("256 parts in 63 classes that lead to one another by all features", dense_search()),
    ("256 random rows of all kinds, 16 classes, 5,000 facts", random_book(1, 256, 16, [1, 2, 3, 4, 5], 5000)),
    ("256 random rows of all kinds, 64 classes, 3,000 facts", random_book(2, 256, 64, [1, 3, 4, 5], 3000)),
    ("256 random keys over 8 classes, 5,000 facts", random_book(3, 256, 8, [5], 5000)),
]
