"""Which judgements go on counting in a page's next version, and which don't any more."""
from __future__ import annotations

import enum
from dataclasses import dataclass

from silvervole.view.page import Page
from silvervole.view.report import Finding, Report


class Fate(enum.Enum):
    """What became of a judgement."""

    COUNTS = "counts"
    AGAIN = "counts again, of an earlier version"
    CHANGED = "counts no more, evidence changed"
    GONE = "counts no more, element gone"
    NO_TARGET = "counts no more, the rule has nothing to say of the element now"
    DECIDED = "counts no more, the rule decides by itself now"

    @property
    def counts(self) -> bool:
        """Whether the judgement counts."""
        return self in (Fate.COUNTS, Fate.AGAIN)


@dataclass(frozen=True)
class Judged:
    """A finding that was judged, as it was or, where its judgement counts, as it is; and what became of that."""

    fate: Fate
    finding: Finding


def fates(before: Report | None, after: Report, page: Page) -> list[Judged]:
    """What became of each judgement that counted, and which count again; one node has one number before and after."""
    olds = [finding for finding in before.findings if finding.judge] if before is not None else []
    news = {(finding.rule, finding.node): finding for finding in after.findings}
    found = [Judged(fate_of(old, news.get((old.rule, old.node)), page), old) for old in olds]
    known = {(old.rule, old.node) for old in olds}
    return found + [Judged(Fate.AGAIN, new) for key, new in news.items() if new.judge and key not in known]


def fate_of(old: Finding, new: Finding | None, page: Page) -> Fate:
    """What became of the judgement of a finding."""
    if old.node not in page.nodes:
        return Fate.GONE
    if new is None:
        return Fate.NO_TARGET
    if new.automatic != "cantTell":
        return Fate.DECIDED
    if new.evidence == old.evidence:
        return Fate.COUNTS
    return Fate.AGAIN if new.judge else Fate.CHANGED
