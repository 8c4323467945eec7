"""Checks pages, and tells what was found."""
from __future__ import annotations

from typing import TYPE_CHECKING

from silvervole.collect.ends import End, Stop
from silvervole.formats.options import any_format
from silvervole.program import Audit
from silvervole.view.rules import RuleTable, read_rules

from .options import Checking
from .running import Checked, Run, Teller
from .screen import Screen
from .subjects import Subject
from .telling import last_lines, page_lines

if TYPE_CHECKING:
    from silvervole.formats.listing import ListedPage

    from .formats import Formats


def check(checking: Checking, program: str, begun: Audit | None) -> int:
    """The status of a check, all of whose findings are told; the audit of the first page may have begun."""
    screen = Screen(program, len(checking.subjects))
    pages: list[Checked] = []
    lost: list[tuple[Subject, Stop]] = []

    def tell(checked: Checked) -> None:
        pages.append(checked)
        screen.write(page_lines(checked, checking.passed))

    def tell_failure(subject: Subject, stop: Stop) -> None:
        lost.append((subject, stop))
        screen.say(f"{subject.page}: status {stop.end.value}: {stop.line}")

    teller = Teller(tell, lambda subject, note: screen.say(f"{subject.page}: {note}"), tell_failure,
                    lambda subject: screen.begin(subject.page), lambda subject: screen.end())
    table = read_rules()
    formats = formats_of(checking, table)
    try:
        worst = Run(checking, table, teller, formats, begun).all()
    finally:
        screen.pause()
    for line in formats.write(in_order(checking, pages), lost) if formats is not None else ():
        screen.say(line)
    findings = [checked.findings for checked in pages]
    screen.write(last_lines(findings, len(lost), checking.budget))
    failed = sum(found.counts["failed"] for found in findings) > checking.budget
    return max(worst, End.FAILED if failed else End.WRITTEN)


def formats_of(checking: Checking, table: RuleTable) -> Formats | None:
    """What writes the formats, where one is asked for."""
    if not any_format(checking.given):
        return None
    from .formats import Formats  # only here, since it loads slowly
    return Formats(checking, table)


def in_order(checking: Checking, pages: list[Checked]) -> list[ListedPage]:
    """The pages in the order in which they were named, however they were checked."""
    order = {subject: place for place, subject in enumerate(checking.subjects)}
    return [checked.listed for checked in sorted(pages, key=lambda checked: order[checked.subject]) if checked.listed is not None]
