"""Asks the program about a book, and reads what it prints."""
import re
import subprocess
from typing import NamedTuple

from book import FEATURES, PARTS
from naive import Refused

NUMBER = rb"(0|[1-9][0-9]*)"
LETTERS = rb"((?: (?:0|[1-9][0-9]*))*)"
REFUSED = re.compile(rb"refused %s record %s\n" % (NUMBER, NUMBER))
JUDGED = re.compile(rb"rules %s\nfacts %s\n(?:stands|clash part %s row %s word%s)\n" % ((NUMBER,) * 4 + (LETTERS,)))


class Clash(NamedTuple):
    part: int
    row: int
    word: tuple[int, ...]


class Judged(NamedTuple):
    """What the program says of a book that it accepts; no clash where the book stands."""

    rules: int
    facts: int
    clash: Clash | None


class Nothing(NamedTuple):
    """No answer that can be read: what came instead."""

    why: str


def ask(program, data, seconds=60):
    """The program's answer on the bytes."""
    try:
        run = subprocess.run([program], input=data, capture_output=True, timeout=seconds)
    except subprocess.TimeoutExpired:
        return Nothing(f"no answer in {seconds} seconds")
    if run.returncode != 0 or run.stderr:
        return Nothing(f"status {run.returncode}, {run.stderr[:200]!r} on standard error, {run.stdout[:200]!r}")
    return parse(run.stdout)


def parse(text):
    """The answer that the whole text is."""
    refused, judged = REFUSED.fullmatch(text), JUDGED.fullmatch(text)
    if refused:
        return Refused(*map(int, refused.groups()))
    if not judged:
        return Nothing(f"not an answer: {text[:200]!r}")
    rules, facts, part, row, word = judged.groups()
    if part is None:
        return Judged(int(rules), int(facts), None)
    clash = Clash(int(part), int(row), tuple(map(int, word.split())))
    if clash.part >= PARTS or any(letter >= FEATURES for letter in clash.word):
        return Nothing(f"no such part or letter: {text[:200]!r}")
    return Judged(int(rules), int(facts), clash)
