"""Collects and audits the pages of a check, some beside each other; each finding is told as soon as its page is audited."""
from __future__ import annotations

import contextlib
import dataclasses
import os
import threading
import time
from dataclasses import dataclass
from typing import TYPE_CHECKING, Callable, ContextManager

from silvervole.collect.browser import Browsers
from silvervole.collect.ends import End, Stop, write_file
from silvervole.collect.places import ended
from silvervole.program import Audit
from silvervole.settings.sign_in import Signed
from silvervole.view.files import read
from silvervole.view.findings import Findings, TargetMaker, bring_together
from silvervole.view.page import Page, read_page
from silvervole.view.pictures import picture_of
from silvervole.view.report import OUTCOMES, Report, read_report
from silvervole.view.rules import RuleTable

from .options import Checking
from .subjects import Subject

if TYPE_CHECKING:
    # They load slowly, and are only there where a page is collected, or a format asked for.
    from silvervole.collect.pages import Collected
    from silvervole.collect.shots import Shot
    from silvervole.formats.listing import ListedPage

    from .formats import Formats


@dataclass(frozen=True)
class Taken:
    """A snapshot, and when its page was begun; the ending that its files have, and its picture where one is wanted."""

    data: bytes
    began: float
    ending: str = ""
    shot: Shot | None = None


@dataclass(frozen=True)
class Checked:
    """An audited page, and what was found. Of a frame or a state there is the ending that its files have."""

    subject: Subject
    ending: str
    findings: Findings
    # The same for the formats; None where none is asked for.
    listed: ListedPage | None = None


@dataclass
class Teller:
    """What is done with each page that is audited, each line on one, and each page that can't be audited."""

    checked: Callable[[Checked], None]
    note: Callable[[Subject, str], None]
    failed: Callable[[Subject, Stop], None]
    begin: Callable[[Subject], None]
    end: Callable[[Subject], None]


class Run:
    """One check of all pages."""

    def __init__(self, checking: Checking, table: RuleTable, teller: Teller, formats: Formats | None, begun: Audit | None) -> None:
        self.checking = checking
        # The audit of the first page, where it has begun.
        self.begun = begun
        self.table = table
        self.formats = formats
        self.teller = teller
        self.signed = checking.sign_in.run() if checking.sign_in is not None else Signed()
        self.browsers = Browsers()
        # One page at a time is told.
        self.telling = threading.Lock()

    def all(self) -> End:
        """The worst status of collecting and auditing the pages, all of which are told then."""
        if self.checking.out:
            make_folder(self.checking.out)
        if len(self.checking.subjects) == 1:
            return self.one(self.checking.subjects[0])
        import concurrent.futures  # only here, since it loads slowly
        with concurrent.futures.ThreadPoolExecutor(self.checking.jobs) as pool:
            work = [pool.submit(self.one, subject) for subject in self.checking.subjects]
            try:
                return max(done.result() for done in concurrent.futures.as_completed(work))
            except BaseException:
                self.browsers.close()
                for waiting in work:
                    waiting.cancel()
                raise

    def one(self, subject: Subject) -> End:
        """The status of one page with its frames and states."""
        if self.browsers.stopped:
            return End.INTERRUPTED
        try:
            with self.telling:
                self.teller.begin(subject)
            if subject.is_snapshot:
                begun = self.begun if subject is self.checking.subjects[0] else None
                self.audit(subject, Taken(begun.snapshot if begun else read(subject.file), time.monotonic()), begun)
            else:
                self.collect(subject)
        except Stop as stop:
            if not self.browsers.stopped:
                with self.telling:
                    self.teller.failed(subject, stop)
            return End(stop.end)
        finally:
            with self.telling:
                self.teller.end(subject)
        return End.WRITTEN

    def collect(self, subject: Subject) -> None:
        """Collects a page and audits what is taken of it; what the sign-in printed goes to its server, and to no file."""
        from silvervole.collect.pages import collect_page
        options = dataclasses.replace(self.checking.options, url=subject.address, states=subject.states)
        if subject.server:
            options = dataclasses.replace(options, cookies=(*self.signed.cookies, *options.cookies), headers=(*self.signed.headers, *options.headers))
        began = time.monotonic()

        def keep(collected: Collected) -> None:
            nonlocal began
            with self.telling:
                for note in collected.notes:
                    self.teller.note(subject, note)
            if collected.text:
                self.audit(subject, Taken(collected.text.encode("utf-8"), began, collected.ending, collected.shot))
            began = time.monotonic()

        holding: Callable[[object], ContextManager[None]] = self.browsers.holding
        collect_page(subject.page, options, keep, holding)

    def audit(self, subject: Subject, taken: Taken, begun: Audit | None = None) -> None:
        """Audits a snapshot, where that hasn't begun, and tells what was found."""
        audit = begun or Audit(taken.data, self.checking.book)
        with contextlib.ExitStack() as stack:
            stack.callback(audit.end)
            page = read_page(taken.data, subject.page)
            text = audit.report()
        report = read_report(text, "what the desk wrote")
        checked = self.brought_together(subject, taken, page, report, self.keep(subject, taken, text))
        with self.telling:
            self.teller.checked(checked)

    def brought_together(self, subject: Subject, taken: Taken, page: Page, report: Report, file: str) -> Checked:
        """All that is told of a page, whose snapshot stands in the file."""
        if self.formats is None:
            told = OUTCOMES if self.checking.passed else OUTCOMES[:-1]
            makers = TargetMaker(page, None, headings=False)
            return Checked(subject, taken.ending, bring_together(report, page, self.table, None, makers, told))
        picture = picture_of(taken.shot.picture, taken.shot.boxes, taken.data, subject.page) if taken.shot is not None else None
        listed = self.formats.listed(subject, page, report, time.monotonic() - taken.began, file, picture)
        return Checked(subject, taken.ending, self.formats.view(listed), listed)

    def keep(self, subject: Subject, taken: Taken, text: bytes) -> str:
        """Writes a page's snapshot and report into the folder of --out; the file of the snapshot, empty where it is in none."""
        if not self.checking.out:
            return subject.file if subject.is_snapshot else ""
        file = ended(os.path.join(self.checking.out, f"{subject.name}.json"), taken.ending)
        write_file(file, taken.data)
        write_file(f"{os.path.splitext(file)[0]}.txt", text)
        return file


def make_folder(path: str) -> None:
    """Makes a folder, where it isn't there."""
    try:
        os.makedirs(path, exist_ok=True)
    except OSError as error:
        raise Stop(End.OUTPUT, f"{path} can't be made: {error.strerror}") from None
