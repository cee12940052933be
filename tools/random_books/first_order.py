"""Books in first-order logic, for the prover E.

A class is a predicate, a feature a function, a part a constant. Nothing says that two parts are two objects, and a
function has a value everywhere, as a feature has.
"""
import re
import shutil
import subprocess

from book import EXCLUDES, IN_CLASS, LEADS, PULLS, VALUE, WITHIN
from compare import ERROR, NO_ANSWER, Question

NAME = "E"
PROGRAM = "eprover"
SECONDS = 3

MODEL = {"Satisfiable": True, "CounterSatisfiable": True, "Unsatisfiable": False, "Theorem": False}


def version():
    """The prover's name and version, or nothing where it is not installed."""
    if not shutil.which(PROGRAM):
        return None
    return " ".join(subprocess.run([PROGRAM, "--version"], capture_output=True, text=True).stdout.split()[:2])


def rule(row):
    """The sentence of a row."""
    if row.kind == WITHIN:
        return f"![X]: (c{row.left}(X) => c{row.right}(X))"
    if row.kind == EXCLUDES:
        return f"![X]: ~(c{row.left}(X) & c{row.right}(X))"
    if row.kind == LEADS:
        return f"![X]: (c{row.left}(X) => c{row.right}(f{row.features[0]}(X)))"
    if row.kind == PULLS:
        return f"![X]: (c{row.left}(f{row.features[0]}(X)) => c{row.right}(X))"
    alike = "".join(f" & f{feature}(X) = f{feature}(Y)" for feature in row.features)
    return f"![X, Y]: ((c{row.left}(X) & c{row.right}(Y){alike}) => X = Y)"


def said(fact):
    """The sentence of a fact."""
    if fact.kind == IN_CLASS:
        return f"c{fact.b}(p{fact.a})"
    if fact.kind == VALUE:
        return f"f{fact.b}(p{fact.a}) = p{fact.c}"
    return f"p{fact.a} = p{fact.b}"


def near(book):
    """The sentences of all facts and of all rows but the exclusions."""
    return [rule(row) for row in book.rows if row.kind != EXCLUDES] + [said(fact) for fact in book.facts()]


def text(sentences, conjecture=None):
    lines = [f"fof(a{i}, axiom, {sentence})." for i, sentence in enumerate(sentences)]
    return "\n".join(lines + ([f"fof(g, conjecture, {conjecture})."] if conjecture else [])) + "\n"


def both(row, thing):
    """The thing is in both classes of the row."""
    return f"c{row.left}({thing}) & c{row.right}({thing})"


def reached(part, word):
    """The object that the word reaches from the part."""
    thing = f"p{part}"
    for feature in word:
        thing = f"f{feature}({thing})"
    return thing


def questions(book, clash):
    """What the program's answer means of the book's sentences."""
    whole = text(near(book) + [rule(row) for _, row in book.exclusions()])
    if clash is None:
        return [Question("the book that stands has a model", whole, True)]
    conjecture = both(book.rows[clash.row], reached(clash.part, clash.word))
    asked = [Question("the book that clashes has no model", whole, False),
             Question("the word reaches both classes", text(near(book), conjecture), False)]
    if clash.word:
        asked.append(Question("no shorter word does", text(near(book) + shorter(book, len(clash.word))), True))
    return asked


def shorter(book, length):
    """No object that fewer letters reach from a part is in both classes of an exclusion."""
    sentences = [f"r0(p{part})" for part in book.parts()]
    for letters in range(length):
        sentences += [f"![X]: ~(r{letters}(X) & {both(row, 'X')})" for _, row in book.exclusions()]
        if letters + 1 < length:
            sentences += [f"![X]: (r{letters}(X) => r{letters + 1}(f{feature}(X)))" for feature in book.letters()]
    return sentences


def has_model(theory):
    """E's answer: has the theory a model, without its conjecture if there is one?"""
    command = [PROGRAM, "--auto", "-s", f"--cpu-limit={SECONDS}", "-"]
    try:
        run = subprocess.run(command, input=theory, capture_output=True, text=True, timeout=10 * SECONDS)
    except subprocess.TimeoutExpired:
        return NO_ANSWER
    status = re.search(r"SZS status (\w+)", run.stdout)
    if status and status[1] in MODEL:
        return MODEL[status[1]]
    return NO_ANSWER if status and status[1] in ("ResourceOut", "Timeout", "GaveUp") else ERROR
