"""The list of findings of which a check's formats are made, with what the team accepts."""
from __future__ import annotations

import datetime

from silvervole.accepted.matching import accepted_page, with_accepted
from silvervole.accepted.reading import read_accepted
from silvervole.collect.ends import Stop
from silvervole.formats.gathering import about_page, listed_page
from silvervole.formats.html_files import view_of
from silvervole.formats.listing import ListedPage, Listing, LostPage
from silvervole.formats.words import unmatched_line
from silvervole.formats.writing import write_formats
from silvervole.view.findings import Findings
from silvervole.view.page import Page
from silvervole.view.pictures import Picture
from silvervole.view.report import Report
from silvervole.view.rules import RuleTable

from .options import Checking
from .subjects import Subject


class Formats:
    """What the words on formats ask for."""

    def __init__(self, checking: Checking, table: RuleTable) -> None:
        self.given = checking.given
        self.table = table
        path = self.given.accepted
        self.acceptances = read_accepted(path, table, datetime.date.today()) if path is not None else ()

    def listed(self, subject: Subject, page: Page, report: Report, seconds: float, snapshot: str, picture: Picture | None) -> ListedPage:
        """A page's findings, each with its acceptance; `snapshot` is the file of the page's snapshot, empty where it is in none."""
        # A page's file holds nothing of what is in its frames.
        file = "" if snapshot == subject.file or page.in_frame else subject.file
        about = about_page(page, report, "", file, snapshot, seconds)
        return accepted_page(listed_page(about, page, report, self.table, picture), self.acceptances)

    def view(self, page: ListedPage) -> Findings:
        """What is told of a page, with what is accepted apart."""
        return view_of(page)

    def write(self, pages: list[ListedPage], lost: list[tuple[Subject, Stop]]) -> list[str]:
        """Writes all formats; a line for each acceptance that matches nothing on any page."""
        not_checked = tuple(LostPage(subject.page, stop.line) for subject, stop in lost)
        listing = with_accepted(Listing(tuple(pages), lost=not_checked), self.acceptances)
        write_formats(listing, self.given)
        return [f"{self.given.accepted}: {unmatched_line(acceptance)}" for acceptance in listing.unmatched]
