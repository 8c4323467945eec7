"""Findings in words: the lines that people read, each with its kind."""
from __future__ import annotations

import enum
from typing import Iterator, NamedTuple, Sequence

from silvervole.collect.ends import one_line
from silvervole.view.counting import FRAME
from silvervole.view.findings import Findings, ReasonPart, RulePart, Target
from silvervole.view.page import shortened
from silvervole.view.report import OUTCOMES
from silvervole.view.rules import Rule

from .running import Checked


class Kind(enum.Enum):
    """What a line is, which says how it is drawn."""

    PAGE = "page"
    FAILED = "failed"
    TO_JUDGE = "cantTell"
    ACCEPTED = "accepted"
    PASSED = "passed"
    RULE = "rule"
    PLACE = "place"
    PLAIN = "plain"


class Line(NamedTuple):
    """A line, how far it is moved in, and a mark before it where it has one."""

    kind: Kind
    indent: int
    text: str


HEADINGS = {"failed": "FAILED", "cantTell": "FOR A PERSON TO JUDGE", "accepted": "FAILED, AND ACCEPTED FOR NOW", "passed": "PASSED"}
WORDS = {"failed": "failed", "cantTell": "to judge", "passed": "passed"}
LONGEST_TEXT = 80
EMPTY = Line(Kind.PLAIN, 0, "")


def page_lines(checked: Checked, with_passed: bool) -> Iterator[Line]:
    """All that is told of a page: the worst first."""
    found = checked.findings
    yield Line(Kind.PAGE, 0, title(checked))
    if found.in_frame:
        yield Line(Kind.PLAIN, 0, FRAME)
    sections = {**found.sections, "accepted": found.accepted}
    for outcome, heading in HEADINGS.items():
        number = sum(part.count for part in sections[outcome])
        if number and (outcome != "passed" or with_passed):
            yield EMPTY
            yield Line(Kind(outcome), 0, f"{heading}: {number}")
            for part in sections[outcome]:
                yield from rule_lines(part, found)
    yield EMPTY
    yield Line(Kind.PLAIN, 0, counts_line(found))
    yield EMPTY


def title(checked: Checked) -> str:
    """The page's address or file, its title and its state."""
    found = checked.findings
    shown = checked.subject.page if checked.subject.file else found.address
    named = f' "{found.title.text}"' if found.title.text else ""
    frame = f", {checked.ending}" if found.in_frame else ""
    return f"{shown}{named}" + (f", state {found.state}" if found.state else "") + frame


def rule_lines(part: RulePart, found: Findings) -> Iterator[Line]:
    """What is told of a rule with one outcome."""
    yield EMPTY
    yield Line(Kind.RULE, 2, rule_title(part.rule))
    for reason in part.parts:
        yield from reason_lines(part.rule, reason, found)
    for merged in part.merged:
        yield Line(Kind.PLAIN, 4, f"Merged in it, {WORDS[merged.outcome]}: {rule_title(merged.rule)}")


def rule_title(rule: Rule) -> str:
    """The rule's name and id, and the criteria that it counts under."""
    criteria = "; ".join(f"WCAG {one.number} {one.name}, level {one.level}" for one in rule.criteria)
    return f"{rule.name or 'Rule'} ({rule.id}{'; ' if criteria else ''}{criteria})"


def reason_lines(rule: Rule, reason: ReasonPart, found: Findings) -> Iterator[Line]:
    """What a reason means, what mends it, and where it is so."""
    if reason.advice is not None:
        yield Line(Kind.PLAIN, 4, reason.advice.means)
        yield Line(Kind.PLAIN, 4, reason.advice.mends)
    else:
        yield Line(Kind.PLAIN, 4, f"The reason: {reason.reason}")
    for target in reason.targets:
        yield from target_lines(target)
        for note in found.notes.get((rule.id, target.number), ()):
            yield Line(Kind.PLAIN, 6, note)


def target_lines(target: Target) -> Iterator[Line]:
    """Where an element is: its path, its start tag and its text."""
    yield Line(Kind.PLACE, 4, f"{'the page as a whole' if target.is_root else target.path} (node {target.number})")
    text = f' "{shortened(target.text.text, LONGEST_TEXT)}"' if target.text.text else ""
    yield Line(Kind.PLAIN, 6, f"{target.tag}{text}")


def counts_line(found: Findings) -> str:
    """The sums of a page."""
    return f"{sums([found])}; {counted(len(found.inapplicable), 'rule')} without a target here"


def sums(pages: Sequence[Findings]) -> str:
    """How many findings of each outcome some pages have, the worst first."""
    parts = [f"{sum(page.counts[outcome] for page in pages)} {WORDS[outcome]}" for outcome in OUTCOMES]
    accepted = sum(part.count for page in pages for part in page.accepted)
    return ", ".join([*parts, *([f"{accepted} accepted for now"] if accepted else [])])


def counted(number: int, what: str) -> str:
    """A number of things, in words."""
    return f"{number} {what}{'' if number == 1 else 's'}"


def last_lines(pages: Sequence[Findings], lost: int, budget: int) -> Iterator[Line]:
    """The sums of all pages, where there is more to say than of the one page."""
    failed = sum(page.counts["failed"] for page in pages)
    parts = []
    if len(pages) > 1 or budget:
        within = f", {'within' if failed <= budget else 'over'} the budget of {budget}" if budget else ""
        parts.append(f"{counted(len(pages), 'page')}: {sums(pages)}{within}")
    if lost:
        parts.append(f"{counted(lost, 'page')} couldn't be checked")
    if parts:
        yield Line(Kind.FAILED if failed > budget or lost else Kind.PLAIN, 0, "; ".join(parts))


def plain(line: Line) -> str:
    """A line as text alone."""
    return " " * line.indent + one_line(line.text) if line.text else ""
