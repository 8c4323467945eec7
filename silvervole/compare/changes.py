"""Pairs the findings of two audits of a page, and says what is new, what is mended and what stays."""
from __future__ import annotations

import enum
from dataclasses import dataclass
from typing import Iterable, Sequence

from silvervole.pairing.finding import pair_pages
from silvervole.view.counting import FRAME, Counted, counted, of_frame
from silvervole.view.page import Page
from silvervole.view.report import OUTCOMES, Finding
from silvervole.view.rules import RuleTable

from .places import Place, Places
from .reading import Audit


class Kind(enum.Enum):
    """What became of a finding that is failed or to judge."""

    NEW = "new"
    MENDED = "mended"
    STAYS = "stays"


@dataclass(frozen=True, eq=False)
class Located:
    """A finding with its place."""

    finding: Finding
    place: Place


@dataclass(frozen=True)
class Change:
    """A finding that is in one of two audits or, at the same place, in both; and what it merges in the new one."""

    kind: Kind
    old: Located | None
    new: Located | None
    merged: tuple[Finding, ...] = ()

    @property
    def shown(self) -> Located:
        """The finding that is spoken of: the new one, and of what is mended the old one."""
        shown = self.old if self.kind is Kind.MENDED else self.new
        assert shown is not None
        return shown

    @property
    def fails(self) -> bool:
        """Whether it is what a pipeline ends at."""
        return self.kind is Kind.NEW and self.shown.finding.outcome == "failed"


@dataclass(frozen=True)
class PageChanges:
    """The changes on one page; of a page that only one audit has, or that stands in a frame, that is said."""

    name: str
    note: str
    changes: tuple[Change, ...]
    frame: str = ""

    def count(self, kind: Kind, outcome: str | None = None) -> int:
        """How many changes are of this kind, and of this outcome where one is given."""
        return sum(change.kind is kind and outcome in (None, change.shown.finding.outcome) for change in self.changes)


NOTHING = Audit("", (), None)


def compare_folders(old: dict[str, Audit], new: dict[str, Audit], table: RuleTable) -> list[PageChanges]:
    """The changes of each page, by the names of the files; what only OLD has comes last."""
    pages = [compare(old.get(name, NOTHING), audit, table, "" if name in old else "a new page") for name, audit in new.items()]
    return pages + [PageChanges(audit.name, "gone: NEW has no such page", ()) for name, audit in old.items() if name not in new]


def compare(old: Audit, new: Audit, table: RuleTable, note: str = "", pairs: dict[int, int] | None = None) -> PageChanges:
    """The changes from one audit of a page to another, in the order of the new audit.

    `pairs` has the old node for the new ones that have one; where none are given, they are found.
    """
    in_frame = any(audit.page is not None and audit.page.in_frame for audit in (old, new))
    counts = [counting(audit, table, in_frame) for audit in (old, new)]
    with_pages = new.page is not None and (old.page is not None or old is NOTHING)
    olds, news = (located(count.findings, audit.page if with_pages else None) for count, audit in zip(counts, (old, new)))
    changes = [Change(kind, before, after, merged(after, counts[1]))
               for before, after in paired(olds, news, pairs_of(old, new) if pairs is None else pairs) if (kind := kind_of(before, after))]
    order = {one: place for place, one in enumerate([*olds, *news])}
    changes.sort(key=lambda change: (list(Kind).index(change.kind), OUTCOMES.index(change.shown.finding.outcome), order[change.shown]))
    return PageChanges(new.name, note, tuple(changes), FRAME if in_frame else "")


def pairs_of(old: Audit, new: Audit) -> dict[int, int]:
    """The old node for the new ones that have one; without the pages a number stands for one node in both."""
    if old.page is not None and new.page is not None:
        return pair_pages(old.page, new.page)
    return {finding.node: finding.node for finding in new.findings}


def counting(audit: Audit, table: RuleTable, in_frame: bool) -> Counted:
    """The findings of an audit that count."""
    return counted(of_frame(audit.findings, table) if in_frame else audit.findings, table)


def merged(located: Located | None, count: Counted) -> tuple[Finding, ...]:
    """What a finding merges, where it is one of a composite."""
    return count.beneath.get((located.finding.rule, located.finding.node), ()) if located else ()


def located(findings: Iterable[Finding], page: Page | None) -> list[Located]:
    """Findings with their places; without the page the places are numbers."""
    places = Places(page) if page is not None else None
    made: dict[int, Place] = {}
    found = []
    for finding in findings:
        if finding.node not in made:
            made[finding.node] = places.place(finding.node) if places else Place(finding.node)
        found.append(Located(finding, made[finding.node]))
    return found


def kind_of(old: Located | None, new: Located | None) -> Kind | None:
    """What became of a finding; None where there is nothing to do, before and after."""
    before = old.finding.outcome if old else "passed"
    after = new.finding.outcome if new else "passed"
    if after == "passed":
        return None if before == "passed" else Kind.MENDED
    return Kind.STAYS if before == after else Kind.NEW


def paired(olds: Sequence[Located], news: Sequence[Located], pairs: dict[int, int]) -> list[tuple[Located | None, Located | None]]:
    """Each finding with the one of its rule on its node's partner, where there is one."""
    left = {(old.finding.rule, old.finding.node): old for old in olds}
    found: list[tuple[Located | None, Located | None]] = []
    for new in news:
        found.append((left.pop((new.finding.rule, pairs.get(new.finding.node, 0)), None), new))
    return [*found, *((old, None) for old in left.values())]
