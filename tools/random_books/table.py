"""The tables of a run, and their place in docs/RANDOM_BOOKS.md."""
from pathlib import Path

from compare import AGREES, DIFFERS, ERROR, NO_ANSWER
from writing import KINDS

PAGE = Path(__file__).parents[2] / "docs/RANDOM_BOOKS.md"
BEGIN, END = "<!-- tables: begin -->", "<!-- tables: end -->"


def is_long(finding):
    return finding.outcome == "clash" and finding.length >= 2


COUNTS = {
    "books": lambda finding: True,
    "stands": lambda finding: finding.outcome == "stands",
    "clash": lambda finding: finding.outcome == "clash",
    "word of 2 letters or more": is_long,
    "key matters": lambda finding: finding.key_matters,
    "refused": lambda finding: finding.outcome == "refused",
    "naive agrees": lambda finding: not finding.naive,
}


def reasoner_counts(name):
    """The columns of one reasoner: a book agrees when each question about it does."""
    return {
        f"{name} agrees": lambda finding: set(finding.outcomes(name)) == {AGREES},
        f"{name}: no answer": lambda finding: NO_ANSWER in finding.outcomes(name),
        f"{name}: error": lambda finding: ERROR in finding.outcomes(name),
    }


def by_kind(findings, names):
    """The table of the run: a line for each kind of book, and their sum."""
    columns = dict(COUNTS)
    for name in names:
        columns |= reasoner_counts(name)
    columns["disagreements"] = lambda finding: bool(finding.differences())
    lines = heading(["kind"] + list(columns))
    groups = [(kind, [finding for finding in findings if finding.kind == kind]) for kind in KINDS]
    for kind, group in [each for each in groups if each[1]] + [("all", findings)]:
        lines.append(line([kind] + [sum(map(count, group)) for count in columns.values()]))
    return lines


def by_question(findings):
    """What came of the questions put to the reasoners, question by question."""
    asked = [question for finding in findings for question in finding.asked]
    outcomes = (AGREES, NO_ANSWER, ERROR, DIFFERS)
    lines = heading(["reasoner", "question", "asked"] + list(outcomes), 2)
    for name, question in sorted({each[:2] for each in asked}):
        came = [outcome for *what, outcome in asked if what == [name, question]]
        lines.append(line([name, question, len(came)] + [came.count(outcome) for outcome in outcomes]))
    return lines


def by_length(findings):
    """How many clashes have a shortest word of so many letters."""
    spans = [(0, 0), (1, 1), (2, 3), (4, 7), (8, 15), (16, 31), (32, 2079)]
    lengths = [finding.length for finding in findings if finding.outcome == "clash"]
    names = [str(a) if a == b else f"{a} to {b}" for a, b in spans]
    counts = [sum(a <= length <= b for length in lengths) for a, b in spans]
    return heading(["letters of a shortest word"] + names) + [line(["clashes"] + counts)]


def by_refusal(findings):
    """How many books were refused by each question."""
    numbers = sorted({finding.refusal for finding in findings if finding.refusal})
    counts = [sum(finding.refusal == number for finding in findings) for number in numbers]
    return heading(["refused by question"] + numbers) + [line(["books"] + counts)]


def heading(names, words=1):
    return [line(names), "|" + "---|" * words + "---:|" * (len(names) - words)]


def line(cells):
    return "| " + " | ".join(f"{cell:,}" if isinstance(cell, int) else cell for cell in cells) + " |"


def tables(findings, reasoners, versions, run):
    """All tables, and by what run and which reasoners they were made."""
    made = [f"Made by `{run}`" + (f", with {' and '.join(versions)}" if versions else "") + "."]
    names = [reasoner.NAME for reasoner in reasoners]
    groups = [made, by_kind(findings, names)] + ([by_question(findings)] if reasoners else [])
    groups += [by_length(findings), by_refusal(findings)]
    return "\n\n".join("\n".join(group) for group in groups)


def write_page(text):
    """Puts the text between the page's two marks."""
    before, rest = PAGE.read_text().split(BEGIN)
    PAGE.write_text(f"{before}{BEGIN}\n\n{text}\n\n{END}{rest.split(END)[1]}")
