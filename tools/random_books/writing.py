"""Random part books, kind by kind.

Each kind is a function that sketches a book in small numbers. `write` then gives the classes, features and parts other
numbers, in any order, puts the rows in any order and deals the facts to the factory and the site. The seed and
its number decide a book, and nothing else does, so each can be written again by itself.
"""
import random
from math import gcd

from book import (CLASSES, EXCLUDES, FACTORY_MARK, FEATURES, IN_CLASS, KEY, LEADS, MOST_ROWS, MOST_SITE_FACTS, ONE,
                  PARTS, PULLS, RULE_MARK, SITE_MARK, VALUE, WITHIN, Book, Fact, Row)


class Sketch:
    """Rows and facts in small numbers, and the random choices that make them."""

    def __init__(self, pick):
        self.pick, self.rows, self.facts, self.named = pick, [], [], {"class": 0, "part": 0}

    def new(self, what):
        self.named[what] += 1
        return self.named[what] - 1

    def chance(self, share):
        return self.pick.random() < share

    def within(self, a, b):
        self.rows.append(Row(WITHIN, a, b))

    def excludes(self, a, b):
        self.rows.append(Row(EXCLUDES, *self.pick.sample([a, b], 2)))

    def leads(self, a, feature, b):
        self.rows.append(Row(LEADS, a, b, (feature,)))

    def pulls(self, feature, a, b):
        self.rows.append(Row(PULLS, a, b, (feature,)))

    def key(self, a, b, features):
        self.rows.append(Row(KEY, a, b, tuple(features)))

    def in_class(self, part, a):
        self.facts.append(Fact(IN_CLASS, part, a))

    def value(self, part, feature, other):
        self.facts.append(Fact(VALUE, part, feature, other))

    def one(self, part, other):
        self.facts.append(Fact(ONE, *self.pick.sample([part, other], 2)))

    def strand(self, a, word, out=0.1):
        """New classes that lead along the word from class a, at times by way of a class they lie within; the last."""
        for feature in word:
            b = self.new("class")
            self.leads(a, feature, b)
            a = b
            if self.chance(out):
                a = self.new("class")
                self.within(b, a)
        return a

    def word(self, features, least, most):
        return [self.pick.randrange(features) for _ in range(self.pick.randint(least, most))]


def scatter(sketch, rows, facts, classes, features, parts, weights):
    """Random rows, of the kinds 1 to 5 by their weights, and random facts, mostly of kinds 1 and 2."""
    pick = sketch.pick
    for kind in pick.choices((WITHIN, EXCLUDES, LEADS, PULLS, KEY), weights, k=rows):
        count = pick.randint(1, min(features, 4)) if kind == KEY else int(kind in (LEADS, PULLS))
        used = tuple(pick.sample(range(features), count))
        sketch.rows.append(Row(kind, pick.randrange(classes), pick.randrange(classes), used))
    for kind in pick.choices((IN_CLASS, VALUE, ONE), (5, 5, 1), k=facts):
        part = pick.randrange(parts)
        if kind == IN_CLASS:
            sketch.in_class(part, pick.randrange(classes))
        elif kind == VALUE:
            sketch.value(part, pick.randrange(features), pick.randrange(parts))
        elif parts > 1:
            sketch.one(part, pick.choice([other for other in range(parts) if other != part]))


# The kinds.


def few_classes(sketch):
    """Everything at random among few classes, features and parts; no keys."""
    pick = sketch.pick
    scatter(sketch, pick.randint(2, 9), pick.randint(1, 8), pick.randint(2, 6), pick.randint(1, 3), pick.randint(1, 6),
            (3, 2, 4, 3, 0))


def many_classes(sketch):
    """Many rows and facts at random among most classes, features and parts; no keys."""
    pick = sketch.pick
    scatter(sketch, pick.randint(40, 130), pick.randint(20, 90), pick.randint(30, 64), pick.randint(6, 16),
            pick.randint(10, 200), (4, pick.choice((0.2, 1)), 4, 3, 0))


def chains(sketch):
    """Two chains of classes along one word of untold parts, whose ends exclude each other; often a link is missing."""
    word, start, part = sketch.word(sketch.pick.randint(1, 3), 1, 12), sketch.new("class"), sketch.new("part")
    other = start if sketch.chance(0.5) else sketch.new("class")
    sketch.excludes(sketch.strand(start, word), sketch.strand(other, word))
    if sketch.chance(0.4):
        sketch.rows.pop(sketch.pick.randrange(len(sketch.rows) - 1))
    for a in {start, other}:
        sketch.in_class(part, a)
    for feature in word[: sketch.pick.choice((0, 0, 1, 2))]:
        sketch.value(part, feature, sketch.new("part"))
        part = sketch.named["part"] - 1


def cycles(sketch):
    """Two cycles of classes along one feature or two, begun by one part; a class of each excludes one of the other."""
    long, short = sketch.pick.randint(2, 9), sketch.pick.randint(1, 8)
    features = [0] * max(long, short) if sketch.chance(0.7) else sketch.word(2, 9, 9)
    rings = []
    for size in (long, short):
        ring = [sketch.new("class") for _ in range(size)]
        for i, a in enumerate(ring):
            sketch.leads(a, features[i % gcd(long, short)], ring[(i + 1) % size])
        rings.append(ring)
    sketch.excludes(sketch.pick.choice(rings[0]), sketch.pick.choice(rings[1]))
    part = sketch.new("part")
    for ring in rings:
        sketch.in_class(part, ring[0])
    if sketch.chance(0.3):
        sketch.value(part, features[0], sketch.pick.choice((part, sketch.new("part"))))


def pull_backs(sketch):
    """A class that leads along a word and gains another by rows of kind 4 back along it; often one row is missing."""
    start, part = sketch.new("class"), sketch.new("part")
    word = sketch.word(sketch.pick.randint(1, 3), 1, 5)
    gained = sketch.strand(start, word, out=0.4)
    for feature in reversed(word):
        back = sketch.new("class")
        sketch.pulls(feature, gained, back)
        gained = back
        if sketch.chance(0.2):
            gained = sketch.new("class")
            sketch.within(back, gained)
    onward = sketch.word(3, 0, 4)
    if sketch.chance(0.4):
        sketch.rows.pop(sketch.pick.randrange(len(sketch.rows)))
    sketch.excludes(sketch.strand(start, onward), sketch.strand(gained, onward))
    sketch.in_class(part, start)
    if sketch.chance(0.4):
        sketch.value(part, word[0], sketch.new("part"))


def told_paths(sketch):
    """Parts told one after another: classes lead forward along them and are pulled back; the two meet, or nearly so."""
    word = sketch.word(2, 2, 6)
    parts = [sketch.new("part") for _ in range(len(word) + 1)]
    for i, feature in enumerate(word):
        sketch.value(parts[i], feature, parts[i + 1])
    forth, back = sketch.new("class"), sketch.new("class")
    sketch.in_class(parts[0], forth)
    sketch.in_class(parts[-1], back)
    meeting = sketch.pick.randrange(len(parts))
    forth = sketch.strand(forth, word[:meeting])
    for feature in reversed(word[meeting:]):
        gained = sketch.new("class")
        sketch.pulls(feature, back, gained)
        back = gained
    if sketch.chance(0.4) and sketch.rows:
        sketch.rows.pop(sketch.pick.randrange(len(sketch.rows)))
    onward = sketch.word(2, 0, 4)
    sketch.excludes(sketch.strand(forth, onward), sketch.strand(back, onward))


def merges(sketch):
    """Parts that are one object, by facts of kind 3 or by two values of a feature, and what they are in together."""
    word = sketch.word(2, 0, 3)
    p, q = sketch.new("part"), sketch.new("part")
    ends = [p, q]
    for feature in word:
        for i in (0, 1):
            sketch.value(ends[i], feature, sketch.new("part"))
            ends[i] = sketch.named["part"] - 1
    if sketch.chance(0.75):
        join(sketch, p, q)
    classes = [sketch.new("class"), sketch.new("class")]
    for i in (0, 1):
        sketch.in_class(ends[i], classes[i])
    onward = sketch.word(2, 0, 4)
    sketch.excludes(sketch.strand(classes[0], onward), sketch.strand(classes[1], onward))
    if sketch.chance(0.5):
        scatter(sketch, 2, 3, sketch.named["class"], 2, sketch.named["part"], (1, 0, 1, 1, 0))


def join(sketch, p, q):
    """Makes two parts one object: by a fact, by a third part, or as two values."""
    third = sketch.new("part")
    way = sketch.pick.randrange(4)
    if way == 0:
        sketch.one(p, q)
    elif way == 1:
        sketch.one(p, third)
        sketch.one(third, q)
    else:
        feature = sketch.pick.randrange(3)
        sketch.value(third, feature, p)
        sketch.value(third, feature, q)


def keys(sketch):
    """Two parts that agree on a key's features, or nearly so; as one object they clash, or clash by a shorter word."""
    p, q = keyed(sketch, sketch.new("part"), sketch.new("part"))
    for _ in range(sketch.pick.choice((0, 0, 1, 2))):
        p, q = keyed_by(sketch, p, q)
    classes = [sketch.new("class"), sketch.new("class")]
    sketch.in_class(p, classes[0])
    sketch.in_class(q, classes[1])
    onward = [sketch.pick.choice((4, 5, 5, 0)) for _ in range(sketch.pick.randint(0, 4))]
    sketch.excludes(sketch.strand(classes[0], onward), sketch.strand(classes[1], onward))
    if sketch.chance(0.25):
        longer_way(sketch, onward)


def keyed(sketch, p, q, least=1):
    """Two parts in the classes of a key; each feature has a value at both that is one object, but for one at times."""
    left, right = sketch.new("class"), sketch.new("class")
    if sketch.chance(0.5):
        right = left
    features = sketch.pick.sample(range(4), sketch.pick.randint(least, 4))
    sketch.key(left, right, features)
    sketch.in_class(p, left)
    sketch.in_class(q, right)
    for feature in features:
        first = sketch.new("part")
        sketch.value(p, feature, first)
        if sketch.chance(0.06):
            continue
        second = first if sketch.chance(0.6) else sketch.new("part")
        sketch.value(q, feature, second)
        if first != second and sketch.chance(0.9):
            join(sketch, first, second)
    return p, q


def keyed_by(sketch, p, q):
    """Two further parts that are one by a key whose first feature has the two given parts as values."""
    further, other = keyed(sketch, sketch.new("part"), sketch.new("part"))
    feature = sketch.rows[-1].features[0]
    told = [fact for fact in sketch.facts if (fact.kind, fact.b) == (VALUE, feature) and fact.a in (further, other)]
    sketch.facts = [fact for fact in sketch.facts if fact not in told]
    sketch.value(further, feature, p)
    sketch.value(other, feature, q)
    return further, other


def longer_way(sketch, onward):
    """A clash of some other part along a longer word, so that the key shortens the word."""
    part, start = sketch.new("part"), sketch.new("class")
    sketch.in_class(part, start)
    word = onward + sketch.word(2, 1, 4)
    sketch.excludes(sketch.strand(start, word, 0), sketch.strand(start, word, 0))


def mixed(sketch):
    """Everything at random among few classes, features and parts, with keys and many facts."""
    pick = sketch.pick
    scatter(sketch, pick.randint(4, 14), pick.randint(6, 26), pick.randint(3, 12), pick.randint(1, 4),
            pick.randint(3, 14), (3, 1, 3, 2, 3))


def full(sketch):
    """As many rows as there may be, of all classes and features, and many facts of all parts; at times with keys."""
    pick = sketch.pick
    scatter(sketch, MOST_ROWS, pick.randint(60, 200), CLASSES, FEATURES, PARTS,
            (4, pick.choice((0.02, 0.1)), 3, 2, pick.choice((0, 1))))


SOUND = {"few classes": (few_classes, 11), "many classes": (many_classes, 6), "chains": (chains, 14),
         "cycles": (cycles, 7), "pull-backs": (pull_backs, 10), "told paths": (told_paths, 8), "merges": (merges, 8),
         "keys": (keys, 23), "mixed": (mixed, 8), "full": (full, 2)}


# From a sketch to a book.


def renamed(sketch):
    """The sketch's rows and facts under other class, feature and part numbers, in any order."""
    pick = sketch.pick
    c, f, p = (pick.sample(range(count), count) for count in (CLASSES, FEATURES, PARTS))
    rows = [Row(r.kind, c[r.left], c[r.right], tuple(f[feature] for feature in r.features)) for r in sketch.rows]
    change = {IN_CLASS: lambda a, b, _: (p[a], c[b], 0), VALUE: lambda a, b, other: (p[a], f[b], p[other]),
              ONE: lambda a, b, _: (p[a], p[b], 0)}
    facts = [Fact(fact.kind, *change[fact.kind](*fact[1:])) for fact in dict.fromkeys(sketch.facts)]
    return pick.sample(rows, len(rows)), pick.sample(facts, len(facts))


def dealt(pick, rows, facts):
    """The book of the rows, with some of the facts for the site to add, and now and then a fact told again there."""
    site = min(pick.choice((0, len(facts) // 2, len(facts))), MOST_SITE_FACTS)
    book = Book(rows, facts[site:], facts[:site])
    if facts and pick.random() < 0.2:
        book.site.insert(pick.randint(0, len(book.site)), pick.choice(facts))
    return book


def sound_book(pick, kinds=None):
    """A whole book of some kind, or of one of the kinds given, and the kind's name."""
    names = list(kinds or SOUND)
    name = pick.choices(names, [SOUND[each][1] for each in names])[0]
    sketch = Sketch(pick)
    SOUND[name][0](sketch)
    return name, dealt(pick, *renamed(sketch))


# Cut, damaged and overfull books.


def cut(pick):
    """A book that ends too early, most often within a record."""
    data = sound_book(pick)[1].record()
    return data[: pick.randrange(len(data))]


def damaged(pick):
    """A book with one record made wrong, in one of the ways in which a record can be, or with a byte changed."""
    book = sound_book(pick, ("few classes", "chains", "pull-backs", "merges", "keys", "mixed"))[1]
    data = bytearray(book.record())
    if pick.random() < 0.15:
        data[pick.randrange(len(data))] = pick.randrange(256)
        return bytes(data)
    wrong = pick.choice((wrong_rule(pick), wrong_fact(pick), wrong_mark(pick), repeated(book)))
    starts = [10 * i for i in range(len(book.rows) + 1)]
    starts += [starts[-1] + 6 * (i + 1) for i in range(len(book.facts()))]
    place = pick.choice([start for start in starts if fits(data, start, wrong)] or [len(data)])
    return bytes(data[:place]) + wrong + bytes(data[place:])


def fits(data, place, wrong):
    """May a record of this mark stand at the place, by the marks before and after it?"""
    order = (RULE_MARK, FACTORY_MARK, SITE_MARK)
    mark = wrong[:2]
    if mark not in order:
        return True
    after = bytes(data[place : place + 2]) or SITE_MARK
    return order.index(last_mark(data, place)) <= order.index(mark) <= order.index(after)


def last_mark(data, place):
    """The mark of the record that ends at the place, or the first group's where none does."""
    at, mark = 0, RULE_MARK
    while at < place:
        mark = bytes(data[at : at + 2])
        at += 10 if mark == RULE_MARK else 6
    return mark


def wrong_rule(pick):
    """A rule record with one or two things wrong; the first of them refuses it."""
    fields = bytearray(Row(KEY, 1, 2, (3, 5)).record())
    for _ in range(pick.choice((1, 1, 2))):
        place, numbers = pick.choice(((2, (0, 6, 255)), (3, (64, 255)), (4, (64, 200)), (5, (0, 1, 5, 255)),
                                      (6, (16, 255, 5)), (7, (16, 200, 3)), (8, (1, 16)), (9, (1, 255))))
        fields[place] = pick.choice(numbers)
    return bytes(fields)


def wrong_fact(pick):
    """A fact's record with one or two things wrong."""
    fact = Fact(pick.choice((IN_CLASS, VALUE, VALUE, ONE)), 1, 2)
    fields = bytearray(fact.record(pick.choice((FACTORY_MARK, SITE_MARK))))
    for _ in range(pick.choice((1, 1, 2))):
        place, numbers = pick.choice(((2, (0, 4, 255)), (4, (16, 255)), (4, (64, 255)), (5, (1, 255))))
        fields[place] = pick.choice(numbers)
    return bytes(fields)


def wrong_mark(pick):
    """A record of a mark that is none."""
    return bytes([pick.choice((0x50, 0x51)), pick.choice((0, 0x47, 0x54))]) + bytes(8)


def repeated(book):
    """A factory fact that is listed twice, or a lawful site fact that is listed already."""
    facts = book.factory or book.site or [Fact(IN_CLASS, 0, 0)]
    record = facts[0].record(FACTORY_MARK)
    return record if book.factory else record + record


def overfull(pick):
    """More rows, site facts or bytes than there may be, or just as many."""
    more, what = pick.choice((0, 1, 2)), pick.choice(("rows", "site facts", "bytes"))
    if what == "rows":
        rows = [Row(WITHIN, pick.randrange(CLASSES), pick.randrange(CLASSES)) for _ in range(MOST_ROWS + more)]
        return Book(rows, [], [Fact(IN_CLASS, 1, 2)]).record()
    if what == "site facts":
        facts = [Fact(IN_CLASS, part, 5) for part in pick.sample(range(PARTS), MOST_SITE_FACTS + more)]
        return Book([], facts[:3], facts[3:] + facts[:3] + [Fact(ONE, 0, part) for part in (1, 2, 3)]).record()
    facts = [Fact(IN_CLASS, n % PARTS, n // PARTS) for n in range(5461)]
    return Book([], facts).record() + pick.choice((b"", FACTORY_MARK[:1], FACTORY_MARK, bytes(40000)))


BROKEN = {"cut": (cut, 5), "damaged": (damaged, 8), "overfull": (overfull, 2)}
KINDS = list(SOUND) + list(BROKEN)


def write(seed, number):
    """One book: the name of its kind, and its bytes. Both follow from the two arguments alone."""
    pick = random.Random(f"{seed}/{number}")
    weights = [weight for _, weight in list(SOUND.values()) + list(BROKEN.values())]
    name = pick.choices(KINDS, weights)[0]
    if name in BROKEN:
        return name, BROKEN[name][0](pick)
    return name, sound_book(pick, [name])[1].record()
