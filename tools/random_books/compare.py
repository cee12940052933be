"""Compares what the program says of a book with the naive evaluation and with reasoners."""
from dataclasses import dataclass, field
from typing import NamedTuple

from naive import Refused, evaluate, read
from program import Judged, ask

AGREES, DIFFERS, NO_ANSWER, ERROR = "agrees", "differs", "no answer", "error"


class Question(NamedTuple):
    """A theory put to a reasoner: has it a model? `has_model` is what the program's answer makes of it."""

    name: str
    theory: str
    has_model: bool


@dataclass
class Finding:
    """What came of one book."""

    kind: str
    data: bytes
    outcome: str
    length: int = 0
    refusal: int | None = None
    key_matters: bool = False
    naive: list[str] = field(default_factory=list)
    asked: list[tuple[str, str, str]] = field(default_factory=list)

    def outcomes(self, reasoner):
        """What came of each question that the reasoner was asked about the book."""
        return [outcome for name, _, outcome in self.asked if name == reasoner]

    def differences(self):
        """Every disagreement, in words."""
        reasoners = [f"{name} differs: {question}" for name, question, outcome in self.asked if outcome == DIFFERS]
        return self.naive + reasoners


def examine(kind, data, program, reasoners):
    """Judges the book by the program, by the naive evaluation and by the reasoners."""
    book, said = read(data), ask(program, data)
    if isinstance(book, Refused):
        differences = [] if said == book else [f"naive {book}, program {said}"]
        return Finding(kind, data, "refused", refusal=book.number, naive=differences)
    evaluation = evaluate(book)
    least = evaluation.least_length()
    finding = Finding(kind, data, "stands" if least is None else "clash", length=least or 0)
    finding.key_matters = key_matters(evaluation, least)
    finding.naive = naive_differences(evaluation, least, said)
    if isinstance(said, Judged) and names_an_exclusion(book, said.clash):
        for reasoner in reasoners:
            finding.asked += put(reasoner, book, said.clash)
    return finding


def names_an_exclusion(book, clash):
    """Is the clash's row an exclusion of the book, so that something can be asked of it? Or is there no clash?"""
    return clash is None or clash.row in dict(book.exclusions())


def key_matters(evaluation, least):
    """Do the keys make one object of parts that are two without them, and is the verdict or the length another then?"""
    if not evaluation.book.has_key():
        return False
    without = evaluate(evaluation.book.without_keys())
    return without.known.one != evaluation.known.one and without.least_length() != least


def naive_differences(evaluation, least, said):
    """In what the program's answer is not right by the naive evaluation; of several shortest clashes any is right."""
    book = evaluation.book
    if not isinstance(said, Judged):
        return [f"naive accepts the book, program {said}"]
    differences = []
    if (said.rules, said.facts) != (len(book.rows), len(book.facts())):
        differences.append(f"naive counts {len(book.rows)} rules and {len(book.facts())} facts, program {said}")
    if (said.clash is None) != (least is None):
        differences.append(f"naive finds the least length {least}, program {said}")
    elif said.clash:
        if not evaluation.is_clash(said.clash.part, said.clash.word, said.clash.row):
            differences.append(f"naive finds that this is no clash: {said.clash}")
        if len(said.clash.word) != least:
            differences.append(f"naive finds a clash of {least} letters, program {said.clash}")
    return differences


def put(reasoner, book, clash):
    """Puts to the reasoner what the program said, and answers what came of each question."""
    asked = []
    for question in reasoner.questions(book, clash):
        answer = reasoner.has_model(question.theory)
        outcome = answer if answer in (NO_ANSWER, ERROR) else AGREES if answer == question.has_model else DIFFERS
        asked.append((reasoner.NAME, question.name, outcome))
    return asked
