"""Books without keys as OWL ontologies, for the reasoner Konclude.

A feature is a functional property that everything has a value of. Nothing says that two individuals are two objects.
A row of kind 3 says that all values of what is in the left class are in the right one, rather than that some value is;
a row of kind 4 says that what is in the left class is a value only of what is in the right one. As there is one value,
these are the rules' sentences; docs/RANDOM_BOOKS.md tells what Konclude makes of shorter ways to say them.
"""
import re
import shutil
import subprocess
import tempfile

from book import EXCLUDES, IN_CLASS, LEADS, PULLS, VALUE, WITHIN
from compare import ERROR, NO_ANSWER, Question

NAME = "Konclude"
PROGRAM = "Konclude"
SECONDS = 8

THING, NOTHING = "owl:Thing", "owl:Nothing"


def version():
    """The reasoner's name and version, or nothing where it is not installed."""
    if not shutil.which(PROGRAM):
        return None
    told = subprocess.run([PROGRAM, "-h"], capture_output=True, text=True, timeout=60)
    return "Konclude " + re.search(r"Version (\S+)", told.stdout + told.stderr)[1]


def some(feature, what):
    return f"ObjectSomeValuesFrom(:f{feature} {what})"


def every(feature, what):
    """What has only values of this kind; as everything has one value by each feature, it is what has such a value."""
    return f"ObjectAllValuesFrom(:f{feature} {what})"


def along(word, what):
    """What has, along the word, a value that is this."""
    for feature in reversed(word):
        what = some(feature, what)
    return what


def no(what):
    return f"ObjectComplementOf({what})"


def both(row):
    """What is in both classes of the row."""
    return f":c{row.left}" if row.left == row.right else f"ObjectIntersectionOf(:c{row.left} :c{row.right})"


def within(left, right):
    return f"SubClassOf({left} {right})"


def is_a(part, what):
    return f"ClassAssertion({what} :p{part})"


def rule(row):
    """The axiom of a row."""
    left, right = f":c{row.left}", f":c{row.right}"
    if row.kind == WITHIN:
        return within(left, right)
    if row.kind == EXCLUDES:
        return within(both(row), NOTHING)
    if row.kind == LEADS:
        return within(left, every(row.features[0], right))
    if row.kind == PULLS:
        return within(left, f"ObjectAllValuesFrom(ObjectInverseOf(:f{row.features[0]}) {right})")
    raise ValueError("a key is not asked of Konclude")


def said(fact):
    """The axiom of a fact."""
    if fact.kind == IN_CLASS:
        return is_a(fact.a, f":c{fact.b}")
    if fact.kind == VALUE:
        return f"ObjectPropertyAssertion(:f{fact.b} :p{fact.a} :p{fact.c})"
    return f"SameIndividual(:p{fact.a} :p{fact.b})" if fact.a != fact.b else is_a(fact.a, THING)


def near(book):
    """The axioms of all facts, of all rows but the exclusions, and of what features are."""
    axioms = [f"FunctionalObjectProperty(:f{feature})" for feature in book.letters()]
    axioms += [within(THING, some(feature, THING)) for feature in book.letters()]
    axioms += [rule(row) for row in book.rows if row.kind != EXCLUDES]
    return axioms + [said(fact) for fact in book.facts()]


def declared(book):
    axioms = [f"Declaration(Class(:c{number}))" for number in book.classes()]
    axioms += [f"Declaration(ObjectProperty(:f{feature}))" for feature in book.letters()]
    return axioms + [f"Declaration(NamedIndividual(:p{part}))" for part in book.parts()]


def text(axioms):
    lines = ["Prefix(:=<http://ride.example/#>)", "Prefix(owl:=<http://www.w3.org/2002/07/owl#>)"]
    return "\n".join(lines + ["Ontology(<http://ride.example/book>"] + axioms + [")"]) + "\n"


def questions(book, clash):
    """What the program's answer means of the book's axioms; nothing where the book has a key."""
    if book.has_key():
        return []
    start = declared(book) + near(book)
    whole = text(start + [rule(row) for _, row in book.exclusions()])
    if clash is None:
        return [Question("the book that stands is consistent", whole, True)]
    out = is_a(clash.part, no(along(clash.word, both(book.rows[clash.row]))))
    asked = [Question("the book that clashes is inconsistent", whole, False),
             Question("the word reaches both classes", text(start + [out]), False)]
    if clash.word:
        asked.append(Question("no shorter word does", text(start + shorter(book, len(clash.word))), True))
    return asked


def shorter(book, length):
    """No object that fewer letters reach from a part is in both classes of an exclusion."""
    axioms = [f"Declaration(Class(:r{letters}))" for letters in range(length)]
    axioms += [is_a(part, ":r0") for part in book.parts()]
    for letters in range(length):
        axioms += [within(f":r{letters}", no(both(row))) for _, row in book.exclusions()]
        if letters + 1 < length:
            axioms += [within(f":r{letters}", every(feature, f":r{letters + 1}")) for feature in book.letters()]
    return axioms


def has_model(theory):
    """Konclude's answer: is the ontology consistent? With one thread alone it may wait for itself, so it gets two."""
    with tempfile.NamedTemporaryFile("w", suffix=".ofn") as file:
        file.write(theory)
        file.flush()
        try:
            command = [PROGRAM, "consistency", "-w", "2", "-i", file.name]
            run = subprocess.run(command, capture_output=True, text=True, timeout=SECONDS)
        except subprocess.TimeoutExpired:
            return NO_ANSWER
    found = re.search(r"Ontology '.*' is (consistent|inconsistent)\.", run.stdout)
    return found[1] == "consistent" if found and run.returncode == 0 else ERROR
