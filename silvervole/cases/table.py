"""How the desk fares with cases: the grades of each rule, and the cases that aren't correct."""
from __future__ import annotations

from dataclasses import dataclass
from typing import Iterable, Iterator, Sequence

from silvervole.collect.ends import End, Stop, one_line

from .judging import Grade, Graded
from .reading import Case

HEADER = ("rule", "cases", "correct", "untold", "wrong", "not tried", "result", "name")
# The places of the columns that stand to the right.
NUMBERS = range(1, 6)
FOUND = {"cantTell": "a person has to judge"}


@dataclass(frozen=True)
class Result:
    """A case, with what the desk says of it, or why it says nothing."""

    case: Case
    outcome: Graded | Stop

    @property
    def is_no_page(self) -> bool:
        """Whether the case's page isn't HTML, so that there is nothing to collect."""
        return isinstance(self.outcome, Stop) and self.outcome.end is End.NOT_HTML


@dataclass(frozen=True)
class Row:
    """The grades of a rule's cases, or of all."""

    rule: str
    name: str
    correct: int
    untold: int
    wrong: int
    not_tried: int

    @property
    def cases(self) -> int:
        """How many cases have a grade."""
        return self.correct + self.untold + self.wrong

    @property
    def result(self) -> str:
        """What the grades make of a rule: inconsistent where one is wrong, else partial where one is untold, else consistent."""
        if not self.cases:
            return "-"
        return "inconsistent" if self.wrong else "partial" if self.untold else "consistent"


def row_of(rule: str, name: str, results: Iterable[Result]) -> Row:
    """The row of some results."""
    grades = [result.outcome.grade if isinstance(result.outcome, Graded) else None for result in results]
    return Row(rule, name, *(grades.count(grade) for grade in (Grade.CORRECT, Grade.UNTOLD, Grade.WRONG, None)))


def rows(results: Sequence[Result], order: Sequence[str]) -> list[Row]:
    """A row for each rule with a case, in the order of the rules."""
    by_rule: dict[str, list[Result]] = {}
    for result in results:
        by_rule.setdefault(result.case.rule, []).append(result)
    return [row_of(rule, by_rule[rule][0].case.rule_name, by_rule[rule]) for rule in order if rule in by_rule]


def table(results: Sequence[Result], order: Sequence[str]) -> Iterator[str]:
    """The lines of the table: a header, a line for each rule, and the sums of all."""
    found = rows(results, order)
    each = ", ".join(f"{number} {word}" for word in ("consistent", "partial", "inconsistent") if (number := [row.result for row in found].count(word)))
    sums = row_of("total", f"{len(found)} {'rule' if len(found) == 1 else 'rules'}: {each or 'none tried'}", results)
    cells = [HEADER, *(cells_of(row, row.result) for row in found), cells_of(sums, "")]
    widths = [max(len(row[column]) for row in cells) for column in range(len(HEADER) - 1)]
    for row in cells:
        parts = [row[column].rjust(width) if column in NUMBERS else row[column].ljust(width) for column, width in enumerate(widths)]
        yield "  ".join([*parts, row[-1]])


def cells_of(row: Row, result: str) -> tuple[str, ...]:
    """The cells of a row."""
    return (row.rule, *map(str, (row.cases, row.correct, row.untold, row.wrong, row.not_tried)), result, one_line(row.name))


def exceptions(results: Iterable[Result]) -> Iterator[str]:
    """A line for each case that isn't correct: wrong and untold ones, and those whose page isn't HTML."""
    for result in results:
        case, outcome = result.case, result.outcome
        if result.is_no_page and isinstance(outcome, Stop):
            yield one_line(f"not HTML: {case.rule} {case.id}: {outcome.line}")
        elif isinstance(outcome, Graded) and outcome.grade is not Grade.CORRECT:
            found = FOUND.get(outcome.actual, f"found {outcome.actual}")
            yield one_line(f"{outcome.grade.value}: {case.rule} {case.id}: expected {case.expected}, {found}: {case.title} ({case.path})")
