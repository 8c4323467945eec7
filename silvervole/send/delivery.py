"""Puts pages at the desk: each with the revision that was read, and anew where somebody was faster."""
from __future__ import annotations

import json
from dataclasses import dataclass
from typing import Any

from silvervole.collect.ends import End, Stop
from silvervole.desk.asking import Desk, object_of
from silvervole.desk.refusals import MOST_BYTES, Refused
from silvervole.pairing.finding import pair_pages
from silvervole.view.outcomes import read_outcomes
from silvervole.view.page import Page, read_page
from silvervole.view.report import Report

from .kept import Kept, Target, read_kept
from .numbers import numbers_of
from .version import Version, written

# How often a page is put anew, each time after somebody else has changed it.
MOST_PUTS = 5


@dataclass(frozen=True)
class Prepared:
    """A version with the numbers that it is sent by, beside what is kept of the page."""

    target: Target
    kept: Kept
    version: Version
    numbers: dict[int, int]
    snapshot: dict[str, Any]
    body: bytes

    @property
    def page(self) -> Page:
        """The page with the numbers that it is sent by."""
        return read_page(self.body, str(self.target))


@dataclass(frozen=True)
class Sent:
    """A page that was put: what was kept of it before, its revision, and its outcomes, of a later revision where it was changed since."""

    prepared: Prepared
    revision: int
    page: Page
    report: Report


def prepare(desk: Desk, target: Target, version: Version) -> Prepared:
    """A version for what the desk keeps now. The first version of a page goes as it is."""
    kept = read_kept(desk, target)
    numbers = {number: number for number in version.page.nodes}
    if kept.page is not None and kept.report is not None:
        pairs = pair_pages(kept.page, version.page)
        numbers = numbers_of(kept.page, version.page, pairs, (finding.node for finding in kept.report.findings))
    snapshot = version.numbered(numbers)
    body = written(snapshot)
    if len(body) > MOST_BYTES:
        raise Stop(End.LIMIT, f"the page has {len(body):,} bytes, and the desk takes {MOST_BYTES:,}")
    return Prepared(target, kept, version, numbers, snapshot, body)


def put(desk: Desk, prepared: Prepared) -> int:
    """The revision that a page gets; a Refused where it isn't put."""
    reply = desk.ask("PUT", prepared.target.path, prepared.body, prepared.kept.revision)
    return revision_in(object_of(reply))


def revision_in(told: dict[str, Any]) -> int:
    """The revision that a reply tells."""
    if not isinstance(told.get("rev"), int):
        raise Stop(End.DESK, "the reply is no desk's: it tells no revision")
    return int(told["rev"])


def send_page(desk: Desk, target: Target, version: Version) -> Sent:
    """Puts a version; where somebody was faster it is made anew for the newer page, a few times."""
    for tried in range(1, MOST_PUTS + 1):
        prepared = prepare(desk, target, version)
        try:
            return sent(desk, prepared, put(desk, prepared))
        except Refused as refused:
            if refused.name != "StaleRevision" or tried == MOST_PUTS:
                raise
    raise AssertionError("each try ends")


def sent(desk: Desk, prepared: Prepared, revision: int) -> Sent:
    """What became of a page that was put with this revision."""
    report = read_outcomes(desk.get(f"{prepared.target.path}/outcomes"), f"the desk's reply on {prepared.target}")
    return Sent(prepared, revision, prepared.page, report)


def import_pages(desk: Desk, site: str, pages: list[Prepared]) -> dict[str, int]:
    """The revisions of pages of a site that are put all at once; a Refused where none is."""
    entries = [{"page": one.target.page, "rev": one.kept.revision, "snapshot": one.snapshot} for one in pages]
    reply = object_of(desk.ask("POST", f"/sites/{site}/import", json.dumps({"pages": entries}, ensure_ascii=False, separators=(",", ":")).encode()))
    try:
        return {told["page"]: revision_in(told) for told in reply["pages"]}
    except (KeyError, TypeError, AttributeError):
        raise Stop(End.DESK, "the reply is no desk's: it tells no pages") from None
