"""What the desk keeps of a page, whose snapshot may stand in a file."""
from __future__ import annotations

from dataclasses import dataclass

from silvervole.collect.ends import End, Stop
from silvervole.desk.asking import Desk
from silvervole.send import kept as sent_to
from silvervole.send.kept import Target
from silvervole.view.files import read
from silvervole.view.outcomes import read_outcomes
from silvervole.view.page import Page, read_page
from silvervole.view.report import Report


@dataclass(frozen=True)
class Kept:
    """A page that is kept, and its outcomes, of one revision."""

    page: Page
    report: Report


def read_kept(desk: Desk, target: Target, snapshot: str | None) -> Kept:
    """What is kept of a page; its nodes are those of the snapshot where one is named."""
    if snapshot is not None:
        report = read_report(desk, target)
        return Kept(of_revision(read_page(read(snapshot), snapshot), report, snapshot), report)
    kept = sent_to.read_kept(desk, target)
    if kept.page is None or kept.report is None:
        raise Stop(End.DESK, f"the desk keeps no page {target}")
    return Kept(kept.page, kept.report)


def read_report(desk: Desk, target: Target) -> Report:
    """The outcomes of a page as they are now."""
    return read_outcomes(desk.get(f"{target.path}/outcomes"), f"the desk's reply on {target}")


def of_revision(page: Page, report: Report, path: str) -> Page:
    """The page of a snapshot; a Stop where it can't be the kept one."""
    if page.revision not in (None, report.revision):
        raise Stop(End.REVISION, f"{path} is revision {page.revision} of the page, and the desk keeps revision {report.revision}")
    lacking = [finding.node for finding in report.findings if finding.node not in page.nodes]
    if lacking:
        raise Stop(End.REVISION, f"{path} is no snapshot of the kept page: it has no node {lacking[0]}")
    return page
