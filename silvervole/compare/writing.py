"""Writes what changed, as text."""
from __future__ import annotations

from typing import Sequence

from silvervole.collect.ends import one_line
from silvervole.formats.listing import WORDS, Entry, Listing
from silvervole.formats.words import accepted_line, rule_title
from silvervole.view.report import Finding
from silvervole.view.rules import Rule, RuleTable

from .changes import Change, Kind, PageChanges


def why(finding: Finding) -> str:
    """The reason's word, or who judged it."""
    return f"judged by {finding.judge}" if finding.judge else finding.reason


def title(rule: Rule) -> str:
    """The rule's name, with its id."""
    return f"{rule.id} {rule.name}".rstrip()


def advice(change: Change, table: RuleTable) -> list[str]:
    """What a new finding means, and what usually mends it."""
    finding = change.shown.finding
    found = table.rule(finding.rule).advice_for(finding.reason, finding.outcome)
    return [found.means, found.mends] if found else []


def merged_lines(change: Change, table: RuleTable) -> list[str]:
    """What a composite merges: the outcome of each of its rules, which counts through it alone."""
    return [f"{WORDS[finding.outcome]}: {title(table.rule(finding.rule))}: {why(finding)}" for finding in change.merged]


def counts(pages: Sequence[PageChanges], accepted: Sequence[Entry]) -> str:
    """The last line: what all pages' changes come to, without those that are accepted."""
    parts = [("new failed", Kind.NEW, "failed"), ("new to judge", Kind.NEW, "cantTell"), ("mended", Kind.MENDED, None), ("stay", Kind.STAYS, None)]
    numbers = {word: sum(page.count(kind, outcome) for page in pages)
               - sum(entry.change == kind.value and outcome in (None, entry.outcome) for entry in accepted) for word, kind, outcome in parts}
    if accepted:
        numbers["accepted"] = len(accepted)
    return ", ".join(f"{word} {number}" for word, number in numbers.items())


def text_of(pages: Sequence[PageChanges], table: RuleTable, listing: Listing | None = None) -> str:
    """The changes as lines for people; what the list has as accepted stands apart."""
    lines = []
    for place, page in enumerate(pages):
        lines.append(f"page {page.name}" + (f" ({page.note})" if page.note else ""))
        lines += [page.frame] if page.frame else []
        apart = {(entry.rule.id, entry.target.number) for entry in listing.pages[place].entries if entry.is_accepted} if listing else set()
        for change in page.changes:
            if change.kind is Kind.MENDED or (change.shown.finding.rule, change.shown.finding.node) not in apart:
                lines += change_lines(change, table)
    accepted = listing.accepted if listing else []
    lines += [f"accepted failed: {rule_title(entry)}: {entry.why}: {entry.place}: {accepted_line(entry.acceptance)}"
              for entry in accepted if entry.acceptance]
    lines.append(counts(pages, accepted))
    return "".join(f"{one_line(line)}\n" for line in lines)


def change_lines(change: Change, table: RuleTable) -> list[str]:
    """The lines of a change: what it is and where, of what is new what it means, and what a composite merges."""
    finding = change.shown.finding
    line = f"{change.kind.value} {WORDS[finding.outcome]}: {title(table.rule(finding.rule))}: {why(finding)}: {change.shown.place}"
    return [line, *(advice(change, table) if change.kind is Kind.NEW else []), *(f"of it {one}" for one in merged_lines(change, table))]
