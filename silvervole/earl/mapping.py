"""Maps assertions to findings of a page at the desk."""
from __future__ import annotations

from dataclasses import dataclass
from typing import Iterable, Iterator, Sequence

from silvervole.view.page import Page
from silvervole.view.report import OUTCOMES, Report
from silvervole.view.rules import RuleTable

from .assertions import Assertion
from .finding import Finder, Unmapped
from .rules import rule_of
from .subjects import Subjects

MODES = ("manual", "semiAuto")


@dataclass(frozen=True)
class Claim:
    """What a person judged of a rule on a node. The digest of the evidence that they saw is empty where it isn't known."""

    rule: str
    node: int
    verdict: str
    mode: str
    digest: str
    note: str
    date: str = ""


@dataclass(frozen=True)
class Skipped:
    """What an assertion says that can't be taken, and why not."""

    what: str
    why: str


class Mapper:
    """Maps assertions to what the desk keeps of a page."""

    def __init__(self, page: Page, report: Report, subjects: Subjects, table: RuleTable) -> None:
        self.page, self.report, self.subjects, self.table = page, report, subjects, table
        self.finder = Finder(page, subjects)
        self.known = report.rules
        self.reasons = {(finding.rule, finding.node): finding.reason for finding in report.findings}

    def all(self, assertions: Iterable[Assertion]) -> Iterator[Claim | Skipped]:
        """What each assertion says: a claim for each of its places."""
        for one in assertions:
            yield from self.claims(one)

    def claims(self, one: Assertion) -> Iterator[Claim | Skipped]:
        """What an assertion says."""
        if one.mode == "automatic":
            yield Skipped("", "made by programs, and not by people")
            return
        if one.subjects and not any(map(self.subjects.has, one.subjects)):
            yield Skipped("", self.another(one.subjects))
            return
        try:
            check(one)
            rule = rule_of(one.tests, self.known, self.table)
        except Unmapped as unmapped:
            yield Skipped(described(one, one.test, ", ".join(map(str, one.places))), str(unmapped))
            return
        yield from self.at_places(one, rule)

    def another(self, subjects: Sequence[str]) -> str:
        """What is said of an assertion on another page."""
        nearly = next(filter(None, map(self.subjects.difference, subjects)), "")
        return f"about {subjects[0]}, and not {self.subjects.address}{f', which {nearly}' if nearly else ''}"

    def at_places(self, one: Assertion, rule: str) -> Iterator[Claim | Skipped]:
        """What an assertion says of a rule at each of its places."""
        nodes: dict[int, None] = {}
        for place in one.places or (None,):
            try:
                nodes[self.whole(rule) if place is None else self.finder.node(place)] = None
            except Unmapped as unmapped:
                yield Skipped(described(one, self.titled(rule), str(place or "")), str(unmapped))
        for node in nodes:
            # A desk's own EARL tells the rule's reason there, which nobody noted.
            note = "" if one.note == self.reasons.get((rule, node)) else one.note
            yield Claim(rule, node, one.outcome, one.mode, one.digest, note, one.date)

    def whole(self, rule: str) -> int:
        """The node of a rule on the page as a whole, of which no place needs to be said."""
        found = [finding.node for finding in self.report.findings if finding.rule == rule]
        if found != [self.page.root.number]:
            raise Unmapped("it says no place")
        return found[0]

    def titled(self, rule: str) -> str:
        """The rule's id and name."""
        return f"{rule} {self.table.rule(rule).name}".rstrip()


def check(one: Assertion) -> None:
    """Refuses an assertion that isn't a person's verdict on the page."""
    if not one.subjects:
        raise Unmapped("its subject has no address")
    if one.mode not in MODES:
        raise Unmapped(f"its mode is {one.mode or 'not told'}, and neither manual nor semiAuto")
    if one.outcome not in OUTCOMES:
        raise Unmapped(f"its outcome is {one.outcome or 'not told'}, and none of {', '.join(OUTCOMES)}")


def described(one: Assertion, test: str, place: str) -> str:
    """What an assertion says, in a line."""
    return ": ".join(filter(None, (test, one.outcome, place)))
