"""Says what became of a page that was sent."""
from __future__ import annotations

from silvervole.collect.ends import one_line
from silvervole.compare.changes import NOTHING, PageChanges, compare
from silvervole.compare.places import Places
from silvervole.compare.reading import Audit
from silvervole.compare.writing import text_of as changes_text, title
from silvervole.formats.listing import WORDS
from silvervole.view.rules import RuleTable

from .delivery import Sent
from .judged import Fate, Judged, fates

# What is said of a page in place of its revision where nothing is sent.
TRIAL = "a trial, not sent"


def changes_of(sent: Sent, what: str, table: RuleTable) -> PageChanges:
    """What is new, mended and stays; a node is one with that of its number."""
    kept = sent.prepared.kept
    old = Audit("", kept.report.findings, kept.page) if kept.report is not None else NOTHING
    # Outcomes of a revision that somebody else has put since may speak of other nodes.
    new = Audit(str(sent.prepared.target), tuple(one for one in sent.report.findings if one.node in sent.page.nodes), sent.page)
    return compare(old, new, table, note_of(sent, what), {number: number for number in sent.page.nodes})


def note_of(sent: Sent, what: str) -> str:
    """What is said of the page as a whole."""
    kept = sent.prepared.kept
    if kept.page is None:
        return f"{what}; a new page"
    stay = len(kept.page.nodes.keys() & sent.page.nodes.keys())
    since = "; changed since" if sent.report.revision != sent.revision else ""
    return f"{what}; {stay} nodes stay, {len(sent.page.nodes) - stay} are new, {len(kept.page.nodes) - stay} are gone{since}"


def text_of(sent: Sent, what: str, table: RuleTable) -> str:
    """The lines on a page: its findings, its judgements, and both counted. `what` says what was done."""
    judged = fates(sent.prepared.kept.report, sent.report, sent.page)
    kept = sent.prepared.kept.page
    places = {True: Places(sent.page), False: Places(kept) if kept is not None else None}
    lines = [judged_line(one, places[one.fate.counts or kept is None], table) for one in sorted(judged, key=lambda one: list(Fate).index(one.fate))]
    told = "".join(f"{one_line(line)}\n" for line in (*lines, judged_counts(judged)))
    return changes_text([changes_of(sent, what, table)], table) + told


def judged_line(judged: Judged, places: Places | None, table: RuleTable) -> str:
    """What became of a judgement, and where it was or is."""
    finding = judged.finding
    place = places.place(finding.node) if places is not None else f"node {finding.node}"
    return f"{judged.fate.value}: {title(table.rule(finding.rule))}: {WORDS[finding.outcome]}, judged by {finding.judge}: {place}"


def judged_counts(judged: list[Judged]) -> str:
    """How many judgements count, and how many don't any more."""
    count = sum(one.fate.counts for one in judged)
    return f"judgements that count {count}, that count no more {len(judged) - count}"
