"""A page as the desk keeps it."""
from __future__ import annotations

import json
from dataclasses import dataclass

from silvervole.collect.ends import End, Stop
from silvervole.desk.asking import NAME, Desk
from silvervole.desk.refusals import Refused
from silvervole.view.outcomes import read_outcomes
from silvervole.view.page import Page, read_page
from silvervole.view.report import Report

MOST_READS = 5


@dataclass(frozen=True)
class Target:
    """A page of a site, by their names."""

    site: str
    page: str

    def __str__(self) -> str:
        return f"{self.site}/{self.page}"

    @property
    def path(self) -> str:
        """The page's path at the desk."""
        return f"/sites/{self.site}/pages/{self.page}"


@dataclass(frozen=True)
class Kept:
    """A page and its outcomes, of one revision; of a page that isn't kept the revision is 0."""

    revision: int
    page: Page | None = None
    report: Report | None = None
    reply: bytes = b""

    @property
    def snapshot(self) -> bytes:
        """The page's snapshot."""
        return json.dumps(json.loads(self.reply)["snapshot"], ensure_ascii=False).encode("utf-8")


def target_of(word: str) -> Target:
    """The page that SITE/PAGE names."""
    site, slash, page = word.partition("/")
    if not slash or not NAME.fullmatch(site) or not NAME.fullmatch(page):
        raise Stop(End.USAGE, f"{word}: a page is named SITE/PAGE, each of 1 to 64 characters out of a to z, 0 to 9, . _ and -")
    return Target(site, page)


def read_kept(desk: Desk, target: Target) -> Kept:
    """What the desk keeps of a page; it is read again where the page is changed between its tree and its outcomes."""
    for _ in range(MOST_READS):
        try:
            reply = desk.get(target.path)
            page = read_page(reply, f"the desk's {target}")
            report = read_outcomes(desk.get(f"{target.path}/outcomes"), f"the desk's reply on {target}")
        except Refused as refused:
            if refused.name != "NoPage":
                raise
            return Kept(0)
        if page.revision is not None and page.revision == report.revision:
            return Kept(page.revision, page, report, reply)
    raise Stop(End.DESK, f"{target} changes too often to be read")
