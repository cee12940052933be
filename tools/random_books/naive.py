"""The definitions of part books, worked out by plain sets and loops.

Nothing here is meant to be fast, and nothing was taken from the program: each function follows one definition of
docs/PART_BOOK.md or docs/REFUSALS.md, property by property.
"""
from dataclasses import dataclass
from typing import NamedTuple

from book import (CLASSES, EXCLUDES, FACTORY_MARK, FEATURES, IN_CLASS, KEY, LEADS, MOST_FACTS, MOST_ROWS,
                  MOST_SITE_FACTS, ONE, PULLS, ROOM, RULE_MARK, SITE_MARK, VALUE, WITHIN, Book, Fact, Row)

GROUPS = {RULE_MARK: 0, FACTORY_MARK: 1, SITE_MARK: 2}
SIZES = (10, 6, 6)


class Refused(NamedTuple):
    """The number of the question that has no, and the record that it was asked of."""

    number: int
    record: int


# Reading: each record's questions in their order. A question function answers the number of the first no, or None.


def row_questions(fields, rows):
    """The questions of a rule record: 1, 2, 3, 4, 5."""
    kind, left, right, count, *features = fields
    used, unused = features[:count], features[count:]
    if kind not in (WITHIN, EXCLUDES, LEADS, PULLS, KEY):
        return 1
    if left >= CLASSES or right >= CLASSES:
        return 2
    if any(feature >= FEATURES for feature in used):
        return 3
    fitting = {WITHIN: [0], EXCLUDES: [0], LEADS: [1], PULLS: [1], KEY: [1, 2, 3, 4]}[kind]
    if count not in fitting or len(set(used)) < len(used) or any(unused):
        return 4
    return 5 if len(rows) == MOST_ROWS else None


def fact_questions(kind, a, b, c):
    """The questions that factory facts and site facts have in common: 1, 2, 3, 4."""
    if kind not in (IN_CLASS, VALUE, ONE):
        return 1
    if kind == IN_CLASS and b >= CLASSES:
        return 2
    if kind == VALUE and b >= FEATURES:
        return 3
    return 4 if kind != VALUE and c != 0 else None


def take_rule(book, fields):
    number = row_questions(fields, book.rows)
    if number is None:
        book.rows.append(Row(fields[0], fields[1], fields[2], tuple(fields[4 : 4 + fields[3]])))
    return number


def take_factory_fact(book, fields):
    number = fact_questions(*fields)
    if number is None and Fact(*fields) in book.factory:
        return 14
    if number is None:
        book.factory.append(Fact(*fields))
    return number


def take_site_fact(book, fields):
    number = fact_questions(*fields)
    if number is not None or Fact(*fields) in book.facts():
        return number
    if len(book.site) == MOST_SITE_FACTS or len(book.facts()) == MOST_FACTS:
        return 6
    book.site.append(Fact(*fields))
    return None


def read(data):
    """The book that the bytes say, or the first refusal."""
    if len(data) >= ROOM:
        return Refused(15, 0)
    book, group, place, record = Book(), 0, 0, 0
    while place < len(data):
        rest = data[place:]
        if len(rest) == 1:
            return Refused(12, record)
        if GROUPS.get(rest[:2], -1) < group:
            return Refused(13, record)
        group = GROUPS[rest[:2]]
        if len(rest) < SIZES[group]:
            return Refused(12, record)
        take = (take_rule, take_factory_fact, take_site_fact)[group]
        number = take(book, list(rest[2 : SIZES[group]]))
        if number is not None:
            return Refused(number, record)
        place, record = place + SIZES[group], record + 1
    return book


# Class steps.


class Steps(NamedTuple):
    """Which classes each class lies within, and to which it leads by each feature."""

    within: list[set[int]]
    leads: list[list[set[int]]]

    def size(self):
        return sum(map(len, self.within)) + sum(len(to) for by_feature in self.leads for to in by_feature)


def class_steps(rows):
    """The least relations with the six properties of class steps."""
    steps = Steps([{a} for a in range(CLASSES)], [[set() for _ in range(FEATURES)] for _ in range(CLASSES)])
    for row in rows:
        if row.kind == WITHIN:
            steps.within[row.left].add(row.right)
        if row.kind == LEADS:
            steps.leads[row.left][row.features[0]].add(row.right)
    before = 0
    while before != steps.size():
        before = steps.size()
        for a in range(CLASSES):
            extend(steps, rows, a)
    return steps


def extend(steps, rows, a):
    """What the last three properties add to class a; the fifth in two halves, as a class lies within itself."""
    within, leads = steps
    for b in list(within[a]):
        within[a] |= within[b]
    for feature in range(FEATURES):
        for c in within[a]:
            leads[a][feature] |= leads[c][feature]
        for d in list(leads[a][feature]):
            leads[a][feature] |= within[d]
    for row in rows:
        if row.kind == PULLS and row.left in leads[a][row.features[0]]:
            within[a].add(row.right)


# Completed facts.


@dataclass
class Completed:
    """What is known of each part that the facts name: its classes, its told values, and the parts it is one with."""

    classes: dict[int, set[int]]
    values: dict[int, list[set[int]]]
    one: dict[int, set[int]]

    def size(self):
        told = sum(len(value) for by_feature in self.values.values() for value in by_feature)
        return told + sum(map(len, self.classes.values())) + sum(map(len, self.one.values()))

    def unite(self, p, q):
        self.one[p].add(q)
        self.one[q].add(p)


def complete(book, steps):
    """The least collection with the seven properties of completed facts."""
    parts = book.parts()
    known = Completed({p: set() for p in parts}, {p: [set() for _ in range(FEATURES)] for p in parts},
                      {p: {p} for p in parts})
    for fact in book.facts():
        tell(known, fact)
    before = 0
    while before != known.size():
        before = known.size()
        share(known)
        values_are_one(known)
        pass_classes(known, steps, book.rows)
        join_by_keys(known, book.rows)
    return known


def tell(known, fact):
    """Every fact is in it."""
    if fact.kind == IN_CLASS:
        known.classes[fact.a].add(fact.b)
    if fact.kind == VALUE:
        known.values[fact.a][fact.b].add(fact.c)
    if fact.kind == ONE:
        known.unite(fact.a, fact.b)


def share(known):
    """Being one object is symmetric and transitive, and parts that are one share classes and values."""
    for p in known.one:
        for q in list(known.one[p]):
            known.unite(p, q)
            known.one[p] |= known.one[q]
            known.classes[p] |= known.classes[q]
            for feature in range(FEATURES):
                known.values[p][feature] |= known.values[q][feature]


def values_are_one(known):
    """Two values of one feature at one part are one object."""
    for by_feature in known.values.values():
        for told in by_feature:
            for q in told:
                known.unite(min(told), q)


def pass_classes(known, steps, rows):
    """Classes pass to the classes they lie within, along told values, and back by rows of kind 4."""
    for p in known.classes:
        for a in list(known.classes[p]):
            known.classes[p] |= steps.within[a]
        for feature in range(FEATURES):
            for q in known.values[p][feature]:
                for a in list(known.classes[p]):
                    known.classes[q] |= steps.leads[a][feature]
                for row in rows:
                    if row.kind == PULLS and row.features[0] == feature and row.left in known.classes[q]:
                        known.classes[p].add(row.right)


def join_by_keys(known, rows):
    """Parts in the two classes of a key that agree on its features are one object."""
    for row in rows:
        if row.kind == KEY:
            lefts = [p for p in known.classes if row.left in known.classes[p]]
            rights = [q for q in known.classes if row.right in known.classes[q]]
            for p in lefts:
                for q in rights:
                    if all(agree(known, p, q, feature) for feature in row.features):
                        known.unite(p, q)


def agree(known, p, q, feature):
    """Is a told value of p and a told value of q one object? Where one is untold, there is no agreement."""
    return any(w in known.one[v] for v in known.values[p][feature] for w in known.values[q][feature])


# Clashes.


class Evaluation(NamedTuple):
    """A book with its class steps and completed facts."""

    book: Book
    steps: Steps
    known: Completed

    def start(self, part):
        """The object of a part: the lowest part that is one with it, or the class set of a part that no fact names."""
        return min(self.known.one[part]) if part in self.known.one else frozenset()

    def classes(self, thing):
        return self.known.classes[thing] if isinstance(thing, int) else thing

    def step(self, thing, feature):
        """The value by the feature: a told part, or else the set of classes that the classes lead to."""
        told = self.known.values[thing][feature] if isinstance(thing, int) else ()
        if told:
            return self.start(min(told))
        return frozenset(b for a in self.classes(thing) for b in self.steps.leads[a][feature])

    def follow(self, part, word):
        thing = self.start(part)
        for feature in word:
            thing = self.step(thing, feature)
        return thing

    def clash_at(self, thing):
        """Is the object in both classes of some exclusion?"""
        classes = self.classes(thing)
        return any(row.left in classes and row.right in classes for _, row in self.book.exclusions())

    def is_clash(self, part, word, number):
        """Do the part, the word and the row of that number make a clash?"""
        if number >= len(self.book.rows) or self.book.rows[number].kind != EXCLUDES:
            return False
        row, classes = self.book.rows[number], self.classes(self.follow(part, word))
        return row.left in classes and row.right in classes

    def least_length(self):
        """The number of letters of a shortest clash, or None where there is no clash."""
        length, border = 0, {self.start(part) for part in self.book.parts()}
        seen = set(border)
        while border:
            if any(self.clash_at(thing) for thing in border):
                return length
            border = {self.step(thing, feature) for thing in border for feature in self.book.letters()} - seen
            seen |= border
            length += 1
        return None


def evaluate(book):
    steps = class_steps(book.rows)
    return Evaluation(book, steps, complete(book, steps))
