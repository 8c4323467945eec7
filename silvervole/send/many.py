"""Sends the pages of a list."""
from __future__ import annotations

import contextlib
import sys
from dataclasses import dataclass

from silvervole.collect.ends import End, Stop, say, write_out
from silvervole.collect.many import read_lines
from silvervole.collect.options import Options
from silvervole.collect.places import check_written
from silvervole.desk.asking import Desk
from silvervole.view.rules import read_rules

from .ahead import Ahead
from .delivery import Sent, prepare
from .imports import Imports
from .kept import Target, target_of
from .rehearsal import Rehearsal
from .shots import put_picture
from .telling import TRIAL, text_of


@dataclass(frozen=True)
class Entry:
    """A line of the list: the page, its file or address, and the address to write where the line has one."""

    target: Target
    source: str
    url: str | None


def read_entries(path: str) -> list[Entry]:
    """The pages of a list, none of them twice."""
    entries = [entry(line, place) for place, line in read_lines(path)]
    seen: set[Target] = set()
    for one in entries:
        if one.target in seen:
            raise Stop(End.USAGE, f"the list has {one.target} twice")
        seen.add(one.target)
    return entries


def entry(line: str, place: int) -> Entry:
    """The page that a line names."""
    words = line.split()
    if len(words) not in (2, 3):
        raise Stop(End.USAGE, f"line {place} of the list isn't SITE/PAGE and FILE or ADDRESS, with or without an address to write")
    return Entry(target_of(words[0]), words[1], check_written(words[2]) if len(words) == 3 else None)


class Course:
    """What became of the pages of a list so far, shown on a terminal as it goes on."""

    def __init__(self, desk: Desk, count: int, trial: bool) -> None:
        self.desk, self.count, self.trial = desk, count, trial
        self.sent = 0
        self.failed: list[tuple[Target, Stop]] = []
        self.table = read_rules()

    def tell(self, sent: Sent) -> None:
        """Says what became of a page that was put, and sends its picture."""
        what = TRIAL if self.trial else f"revision {sent.revision}"
        write_out(text_of(sent, what, self.table).encode("utf-8"))
        try:
            if not self.trial:
                put_picture(self.desk, sent.prepared, sent.revision)
        except Stop as stop:
            self.fail(sent.prepared.target, Stop(stop.end, f"it is sent, but not its picture: {stop.line}"))
        else:
            self.sent += 1
            self.show()

    def fail(self, target: Target, stop: Stop) -> None:
        """Takes note of a page that fails."""
        self.failed.append((target, stop))
        self.show()

    def show(self) -> None:
        """Shows on a terminal how far it has come."""
        if sys.stderr is not None and sys.stderr.isatty():
            say("send", f"{self.sent + len(self.failed)} of {self.count} pages")

    def end(self) -> End:
        """Names the pages that failed, counts all, and gives the worst status."""
        for target, stop in self.failed:
            say("send", f"{target}: status {stop.end.value}: {stop.line}")
        worst = max((stop.end for _, stop in self.failed), default=End.WRITTEN)
        write_out(f"{self.count} pages, {self.sent} {'tried' if self.trial else 'sent'}, {len(self.failed)} failed, "
                  f"status {worst.value}\n".encode("ascii"))
        return worst


def send_list(path: str, desk: Desk, options: Options, trial: bool, jobs: int = 1, book: str | None = None) -> End:
    """Sends all pages of a list, or tries what would become of them, by a book; so many are collected beside each other."""
    entries = read_entries(path)
    course = Course(desk, len(entries), trial)
    imports = Imports(desk, course.tell, course.fail)
    with contextlib.ExitStack() as stack:
        rehearsal = stack.enter_context(Rehearsal(course.table, book)) if trial else None
        ahead = stack.enter_context(Ahead(jobs, options))
        for one, version in ahead.versions(entries):
            try:
                prepared = prepare(desk, one.target, version.result())
                if rehearsal is not None:
                    course.tell(rehearsal.send(prepared))
                else:
                    imports.add(prepared)
            except Stop as stop:
                if stop.end is End.OUTPUT:
                    raise
                course.fail(one.target, stop)
        imports.end()
    return course.end()
