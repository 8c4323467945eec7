"""What the desk's program says of cases, and their grades.

Nothing else here asks the program, and `judged` takes as many cases as the program is to take at once. The program takes them as
one list; one that it refuses, or that has no word for lists, audits each page alone.
"""
from __future__ import annotations

import enum
import json
import re
from dataclasses import dataclass
from typing import Iterator, Sequence

from silvervole.books import THIRTY
from silvervole.collect.ends import End, Stop
from silvervole.program import Audit, table_of
from silvervole.view.report import Report, read_report

from .reading import Case

# The most cases that a list of the program has, and the most bytes.
MOST_AT_ONCE = 64
MOST_BYTES = 8_388_608
FRONT, END = b'{"cases":[', b"]}"


class Grade(enum.Enum):
    """How an outcome compares with the expected one."""

    CORRECT = "correct"
    UNTOLD = "untold"
    WRONG = "wrong"


@dataclass(frozen=True)
class Graded:
    """What the desk says of a case: passed, failed, cantTell or inapplicable; and the grade of that."""

    actual: str
    grade: Grade


LINE = re.compile(r"case c(?P<place>[0-9]+) (?P<rule>[a-z0-9]{6}) expected (?P<expected>[a-z]+) "
                  r"actual (?P<actual>passed|failed|cantTell|inapplicable) (?P<grade>correct|untold|wrong)")


def judged(cases: Sequence[tuple[Case, bytes]], book: str = THIRTY) -> list[Graded | Stop]:
    """What the desk says by a book of cases with their snapshots, at most 64; a Stop in the place of each that it refuses."""
    return [outcome for some in lists(cases)
            for outcome in judged_together(some, book) or [judged_alone(case, snapshot, book) for case, snapshot in some]]


def lists(cases: Sequence[tuple[Case, bytes]]) -> Iterator[list[tuple[Case, bytes]]]:
    """The cases in lists of no more bytes than the program takes, but for a case that has more by itself."""
    some: list[tuple[Case, bytes]] = []
    size = 0
    for case, snapshot in cases:
        more = len(entry(MOST_AT_ONCE, case, snapshot)) + 1
        if some and (len(some) == MOST_AT_ONCE or len(FRONT) + size + more + len(END) > MOST_BYTES):
            yield some
            some, size = [], 0
        some.append((case, snapshot))
        size += more
    if some:
        yield some


def list_of(cases: Sequence[tuple[Case, bytes]]) -> bytes:
    """The list of cases as the program reads it."""
    return FRONT + b",".join(entry(place, case, snapshot) for place, (case, snapshot) in enumerate(cases, 1)) + END


def entry(place: int, case: Case, snapshot: bytes) -> bytes:
    """A case in a list, named by its place."""
    members = json.dumps({"id": f"c{place}", "rule": case.rule, "expected": case.expected}).encode("utf-8")
    return members[:-1] + b',"snapshot":' + snapshot + b"}"


def judged_together(cases: Sequence[tuple[Case, bytes]], book: str) -> list[Graded | Stop] | None:
    """What the program's table says of each case of a list; None where there is no such table."""
    table = table_of(list_of(cases), book)
    lines = [] if table is None else table.decode("utf-8", "replace").splitlines()
    found = [LINE.fullmatch(line) for line in lines[:len(cases)]]
    if len(found) != len(cases):
        return None
    graded_cases: list[Graded | Stop] = []
    for place, (line, (case, _)) in enumerate(zip(found, cases), 1):
        if line is None or (line["place"], line["rule"], line["expected"]) != (str(place), case.rule, case.expected):
            return None
        graded_cases.append(Graded(line["actual"], Grade(line["grade"])))
    return graded_cases


def judged_alone(case: Case, snapshot: bytes, book: str) -> Graded | Stop:
    """What the desk says of one case, by an audit of its page."""
    try:
        audit = Audit(snapshot, book)
        try:
            return graded(case, read_report(audit.report(), "what the desk wrote"))
        finally:
            audit.end()
    except Stop as stop:
        return stop


def graded(case: Case, report: Report) -> Graded:
    """The grade of a case by the outcomes of its rule: the worst of them counts, and none is inapplicable."""
    outcomes = {finding.automatic or finding.outcome for finding in report.findings if finding.rule == case.rule}
    if not outcomes and case.rule not in report.inapplicable:
        raise Stop(End.PROGRAM, f"the desk's program has no rule {case.rule}")
    actual = next((outcome for outcome in ("failed", "cantTell", "passed") if outcome in outcomes), "inapplicable")
    return Graded(actual, Grade.UNTOLD if actual == "cantTell" else Grade.CORRECT if actual == case.expected else Grade.WRONG)
