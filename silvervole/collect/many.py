"""Collects the pages of a list, some beside each other, each in a browser of its own."""
from __future__ import annotations

import concurrent.futures
import dataclasses
import glob
import os
import pathlib
import sys
from typing import NamedTuple

from .browser import Browsers
from .ends import End, Stop, one_line, remove, say, write_file, write_out
from .options import Command, Options
from .pages import Collected, collect_page
from .places import check_written, ended, name_of


# Apart from the snapshots, so that *.json in the folder is snapshots alone.
PICTURES = "pictures"


class Listed(NamedTuple):
    """A page of a list: what is opened, the address to write where the line has one, and its file's name."""

    page: str
    url: str | None
    name: str

    @property
    def shown(self) -> str:
        """The page's address as lines name it."""
        return self.url or self.page


def read_lines(path: str) -> list[tuple[int, str]]:
    """The lines of a list, with their places; without those that are empty or begin with `#`."""
    try:
        data = sys.stdin.buffer.read() if path == "-" else pathlib.Path(path).read_bytes()
        lines = data.decode("utf-8").splitlines()
    except (OSError, AttributeError) as error:
        raise Stop(End.USAGE, f"--list {path} can't be read: {getattr(error, 'strerror', None) or 'no standard input'}") from None
    except UnicodeDecodeError:
        raise Stop(End.USAGE, f"--list {path} isn't in UTF-8") from None
    found = [(place, line) for place, line in enumerate(lines, 1) if line.strip() and not line.lstrip().startswith("#")]
    if not found:
        raise Stop(End.USAGE, f"--list {path} names no page")
    return found


def read_list(path: str) -> list[Listed]:
    """The pages of a list: on each line an address, or a file's path and behind it the address to write."""
    pages = [listed(line, place) for place, line in read_lines(path)]
    first: dict[str, str] = {}
    for page in pages:
        if page.name in first:
            raise Stop(End.USAGE, f"{first[page.name]} and {page.shown} would be written to one file, {page.name}.json")
        first[page.name] = page.shown
    return pages


def listed(line: str, place: int) -> Listed:
    """The page that a line names."""
    words = line.split()
    if len(words) > 2:
        raise Stop(End.USAGE, f"line {place} of the list has more than a page and an address")
    url = check_written(words[1]) if len(words) == 2 else None
    return Listed(words[0], url, name_of(url or words[0]))


def collect_listed(page: Listed, command: Command, browsers: Browsers) -> End:
    """Collects one page of a list into its file; a page that fails leaves none there."""
    if browsers.stopped:
        return End.INTERRUPTED
    file = os.path.join(command.out, f"{page.name}.json")
    picture = os.path.join(command.out, PICTURES, f"{page.name}.png")
    for old in (file, picture, f"{picture}.json", *glob.glob(glob.escape(ended(file, "frame-")).replace("frame-.", "frame-*."))):
        remove(old)
    options: Options = dataclasses.replace(command.options, url=page.url, shot=picture if command.shots else None)

    def keep(collected: Collected) -> None:
        for note in collected.notes:
            say("collect", f"{page.shown}: {note}")
        if collected.text:
            collected.write_shot(picture)
            written = ended(file, collected.ending)
            write_file(written, collected.text.encode("utf-8"))
            write_out(f"{one_line(page.shown)} {written}\n".encode("utf-8", "backslashreplace"))

    try:
        collect_page(page.page, options, keep, browsers.holding)
    except Stop as stop:
        if not browsers.stopped:
            say("collect", f"{page.shown}: status {stop.end.value}: {stop.line}")
        return stop.end
    return End.WRITTEN


def collect_list(command: Command) -> End:
    """Collects all pages, says how many were, and gives the worst status."""
    pages = read_list(command.list or "")
    try:
        os.makedirs(os.path.join(command.out, PICTURES) if command.shots else command.out, exist_ok=True)
    except OSError as error:
        raise Stop(End.OUTPUT, f"{command.out} can't be made: {error.strerror}") from None
    browsers = Browsers()
    with concurrent.futures.ThreadPoolExecutor(command.jobs) as pool:
        work = [pool.submit(collect_listed, page, command, browsers) for page in pages]
        try:
            ends = [done.result() for done in concurrent.futures.as_completed(work)]
        except BaseException:
            browsers.close()
            raise
    failed = sum(end is not End.WRITTEN for end in ends)
    worst = max(ends)
    write_out(f"{len(ends)} pages, {len(ends) - failed} collected, {failed} failed, status {worst.value}\n".encode("ascii"))
    return worst
