"""Says in a line each what becomes of what people judged."""
from __future__ import annotations

from collections import Counter
from typing import Iterable, Sequence

from silvervole.collect.ends import one_line
from silvervole.compare.places import Places
from silvervole.compare.writing import title
from silvervole.view.page import Page
from silvervole.view.rules import RuleTable

from .mapping import Skipped
from .sending import note_of
from .taking import Fate, Taken


class Teller:
    """Tells of one page."""

    def __init__(self, page: Page, table: RuleTable) -> None:
        self.page, self.table = page, table
        self.places = Places(page)

    def about(self, one: Taken) -> str:
        """The rule, the verdict and the place; and what another verdict takes the place of."""
        finding = one.finding
        place = self.places.place(one.claim.node) if one.claim.node in self.page.nodes else f"node {one.claim.node}"
        before = f", in place of {finding.outcome} by {finding.judge}" if finding is not None and finding.judge and one.fate is Fate.ADDED else ""
        return f"{title(self.table.rule(one.claim.rule))}: {one.claim.verdict}{before}: {place}"

    def line(self, one: Taken | Skipped) -> str:
        """The line on one."""
        if isinstance(one, Skipped):
            return one_line(f"skipped: {': '.join(filter(None, (one.what, one.why)))}")
        cut = "; its note is cut to 2,000 bytes" if one.fate is Fate.ADDED and note_of(one.claim) != one.claim.note else ""
        return one_line(f"{one.fate.value}: {self.about(one)}{f': {one.why}' if one.why else ''}{cut}")

    def lines(self, taken: Iterable[Taken | Skipped]) -> list[str]:
        """A line for each; equal ones are one, with their number."""
        counted = Counter(map(self.line, taken))
        return [f"{line} ({number} times)" if number > 1 else line for line, number in counted.items()]


def sums(taken: Sequence[Taken | Skipped]) -> str:
    """How many were added, known and skipped."""
    fates = Counter(one.fate if isinstance(one, Taken) else Fate.SKIPPED for one in taken)
    return ", ".join(f"{fate.value} {fates[fate]}" for fate in Fate)
