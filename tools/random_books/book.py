"""What a part book is made of, and the bytes that say it."""
from dataclasses import dataclass, field
from typing import NamedTuple

WITHIN, EXCLUDES, LEADS, PULLS, KEY = 1, 2, 3, 4, 5
IN_CLASS, VALUE, ONE = 1, 2, 3

RULE_MARK, FACTORY_MARK, SITE_MARK = b"\x50\x52", b"\x50\x46", b"\x50\x53"

CLASSES, FEATURES, PARTS = 64, 16, 256
MOST_ROWS, MOST_SITE_FACTS, MOST_FACTS = 256, 64, 65536
ROOM = 32768


class Row(NamedTuple):
    """A rule: its kind, its two classes and the features in use."""

    kind: int
    left: int
    right: int
    features: tuple[int, ...] = ()

    def record(self):
        used = list(self.features)
        return RULE_MARK + bytes([self.kind, self.left, self.right, len(used)] + used + [0] * (4 - len(used)))


class Fact(NamedTuple):
    """A fact: its kind and three numbers."""

    kind: int
    a: int
    b: int
    c: int = 0

    def parts(self):
        """The parts that the fact names."""
        return {self.a} if self.kind == IN_CLASS else {self.a, self.c} if self.kind == VALUE else {self.a, self.b}

    def record(self, mark):
        return mark + bytes(self)


@dataclass
class Book:
    """Rules, the factory's facts and the facts that the site added; no fact is listed twice."""

    rows: list[Row] = field(default_factory=list)
    factory: list[Fact] = field(default_factory=list)
    site: list[Fact] = field(default_factory=list)

    def facts(self):
        return self.factory + self.site

    def parts(self):
        """The parts that some fact names, in rising order. Of any other part nothing is known."""
        return sorted(set().union(*(fact.parts() for fact in self.facts())))

    def letters(self):
        """The features that some row or fact names, in rising order. No other feature leads to a class."""
        named = {feature for row in self.rows for feature in row.features}
        return sorted(named | {fact.b for fact in self.facts() if fact.kind == VALUE})

    def classes(self):
        """The classes that some row or fact names, in rising order."""
        named = {number for row in self.rows for number in (row.left, row.right)}
        return sorted(named | {fact.b for fact in self.facts() if fact.kind == IN_CLASS})

    def exclusions(self):
        """The exclusion rows, each with its number."""
        return [(number, row) for number, row in enumerate(self.rows) if row.kind == EXCLUDES]

    def has_key(self):
        return any(row.kind == KEY for row in self.rows)

    def without_keys(self):
        return Book([row for row in self.rows if row.kind != KEY], self.factory, self.site)

    def record(self):
        """The book's bytes: rule records, factory records, site records."""
        rules = [row.record() for row in self.rows]
        factory = [fact.record(FACTORY_MARK) for fact in self.factory]
        return b"".join(rules + factory + [fact.record(SITE_MARK) for fact in self.site])
