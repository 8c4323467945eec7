"""Words that more than one format says."""
from __future__ import annotations

from silvervole.accepted.reading import Acceptance
from silvervole.collect.ends import one_line

from .listing import Entry, Listing, LostPage

HEADINGS = {"failed": "Failed", "cantTell": "For a person to judge", "passed": "Passed"}


def rule_title(entry: Entry) -> str:
    """The rule's id and name."""
    return f"{entry.rule.id} {entry.rule.name}".rstrip()


def criteria_of(entry: Entry) -> str:
    """The criteria that the rule counts under."""
    return ", ".join(f"{one.number} {one.name}" for one in entry.rule.criteria)


def advice_of(entry: Entry) -> list[str]:
    """What the finding means, and what usually mends it."""
    return [entry.advice.means, entry.advice.mends] if entry.advice else []


def merged_of(entry: Entry) -> list[str]:
    """A line for each finding that a composite merges."""
    return [one_line(f"{one.state_of_things}: {rule_title(one)}: {one.why}") for one in entry.beneath]


def lines_of(entry: Entry) -> list[str]:
    """All that is said of a finding below its rule's name, as lines."""
    tag = [f"Start tag: {entry.target.tag}"] if entry.target.tag else []
    accepted = [accepted_line(entry.acceptance)] if entry.acceptance else []
    return [one_line(line) for line in (
        *advice_of(entry), f"Page: {entry.page.shown}", f"Where: {entry.where} (node {entry.target.number})", *tag,
        *([f"Judged by {entry.judge}"] if entry.judge else []), *accepted)]


def accepted_line(acceptance: Acceptance) -> str:
    """Who accepts a finding, until when, and why."""
    word = "Accepted" if acceptance.lasts else "Was accepted"
    return one_line(f"{word} by {acceptance.who} until {acceptance.until}: {acceptance.reason}")


def unmatched_line(acceptance: Acceptance) -> str:
    """An acceptance that matches nothing."""
    return one_line(f"Nothing failed like what {acceptance.who} accepts until {acceptance.until}: {acceptance.rule} at {acceptance.place}")


def lost_line(lost: LostPage) -> str:
    """A page that couldn't be checked."""
    return one_line(f"{lost.name} couldn't be checked: {lost.why}")


def sums(listing: Listing) -> str:
    """What the findings come to: how many failed, how many are to judge, and so on."""
    counts = listing.counts
    kinds = ([("new", "failed", "new failed"), ("new", "cantTell", "new to judge"), ("stays", "failed", "stay failed"),
              ("stays", "cantTell", "stay to judge")] if listing.compared else
             [("", "failed", "failed"), ("", "cantTell", "to judge"), ("", "passed", "passed")])
    said = [f"{counts[change, outcome]} {word}" for change, outcome, word in kinds]
    if listing.compared:
        said.append(f"{sum(number for (change, _), number in counts.items() if change == 'mended')} mended")
    more = [f"{len(listing.accepted)} accepted"] if listing.accepted else []
    return ", ".join([*said, *more, *([f"{len(listing.lost)} not checked"] if listing.lost else [])])
