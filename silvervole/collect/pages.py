"""Collects one page in a browser of its own, with its frames and its states where they are wanted."""
from __future__ import annotations

import contextlib
import time
from dataclasses import dataclass
from typing import Any, Callable, ContextManager, Iterator

from . import loading
from .browser import kill_browser, start_browser
from .closed import closed_note
from .ends import End, Stop, first_line, write_file
from .frames import TOGETHER, Frames
from .options import Options
from .places import Place, ended, place_of
from .shots import Shot, take_shot
from .states import Doer, Step, read_steps
from .taking import Taken, Wanted, take
from .traffic import Traffic

# What is entered with a browser for as long as it is at work.
Holding = Callable[[Any], ContextManager[Any]]


@dataclass(frozen=True)
class Collected:
    """What was taken of a page: its snapshot, a line for each thing to tell of it, and its picture where one is wanted.

    Of a frame or a state there is the ending that its file has. A frame that can't be looked into has no text, nor has
    what is only told of a page.
    """

    text: str
    notes: tuple[str, ...]
    shot: Shot | None = None
    ending: str = ""

    def write_shot(self, path: str) -> None:
        """Writes the picture, and its boxes beside it."""
        if self.shot is not None:
            path = ended(path, self.ending)
            write_file(path, self.shot.picture)
            write_file(f"{path}.json", self.shot.boxes)


class Visit:
    """A page that a browser has opened."""

    def __init__(self, browser: Any, place: Place, options: Options) -> None:
        self.browser = browser
        self.place = place
        self.options = options
        self.end = time.monotonic() + options.timeout
        self.traffic: Traffic = loading.load(browser, place, options)

    def state(self, step: Step | None = None) -> Iterator[Collected]:
        """The snapshot of the page as it is now, what there is to tell of it, and the snapshots of its frames."""
        taken, page = self.page(step)
        yield page
        # To count takes its time, so the page's snapshot isn't held up by it.
        if note := self.closed():
            yield Collected("", (note,), ending=page.ending)
        if self.options.frames:
            front = f"{page.ending}." if page.ending else ""
            for document in Frames(self.browser, self.wanted(step), self.end).documents(taken):
                yield Collected(document.text, document.notes, ending=f"{front}frame-{document.number}")

    def wanted(self, step: Step | None) -> Wanted:
        """How snapshots are taken of a state."""
        options = self.options
        return Wanted(options.exact, options.shadow, options.shot is not None, options.frames, step.name if step else None)

    def page(self, step: Step | None) -> tuple[Taken, Collected]:
        """What is taken of the page's own document."""
        options = self.options
        before = loading.check(self.browser, self.place, options, self.traffic)
        try:
            taken = take(self.browser, options.url, self.wanted(step))
        except Stop as stop:
            # A page that moves on while it is read gives a fault of the driver.
            if stop.end is End.DOCUMENT:
                self.refuse_moved(before)
            raise
        self.refuse_moved(before)
        shot = take_shot(self.browser, taken) if options.shot is not None else None
        notes = [*taken.cuts, shot.cut if shot else ""]
        return taken, Collected(taken.text, tuple(filter(None, notes)), shot, step.ending if step else "")

    def closed(self) -> str:
        """A line on the closed shadow trees that are left out of the page; empty where there is none."""
        return closed_note(self.browser, self.options.frames) if self.options.shadow else ""

    def refuse_moved(self, before: loading.Shown) -> None:
        """Refuses a page that moved on while it was read."""
        after = loading.shown(self.browser, self.place)
        if self.options.url is not None and not self.options.follow and after.address != before.address:
            raise loading.moved(before.address, after.address)

    def states(self, steps: tuple[Step, ...]) -> Iterator[Collected]:
        """The page as it is at first, and after each step."""
        yield from self.state()
        for step in steps:
            self.end = time.monotonic() + self.options.timeout
            Doer(self.browser, step, self.traffic, self.options.timeout).do_all()
            time.sleep(self.options.settle / 1000)
            try:
                yield from self.state(step)
            except Stop as stop:
                raise Stop(stop.end, f"step {step.number} ({step.name}): {stop.line}") from None


def collect_in(browser: Any, place: Place, options: Options) -> Collected:
    """Opens a page in a browser that shows none yet, and takes its snapshot."""
    return Visit(browser, place, options).page(None)[1]


def collect_page(page: str, options: Options, keep: Callable[[Collected], None],
                 holding: Holding = contextlib.nullcontext) -> None:
    """Collects one page, its frames and its states in a browser that is held meanwhile, and closed in the end.

    Each is kept as soon as it is taken.
    """
    place = place_of(page)
    if place.is_file and options.url is None:
        raise Stop(End.USAGE, "a file has no address that the desk takes: give one with --url, "
                              "as in --url https://www.example.org/")
    if place.is_file and (options.cookies or options.headers):
        raise Stop(End.USAGE, "a file is opened without a server: --cookie and --header have nowhere to go")
    steps = read_steps(options.states) if options.states is not None else ()
    browser = start_browser(options.viewport, TOGETHER if options.frames else ())
    try:
        from selenium.common.exceptions import WebDriverException
        from urllib3.exceptions import HTTPError

        with holding(browser):
            for collected in Visit(browser, place, options).states(steps):
                keep(collected)
    except (WebDriverException, HTTPError, OSError) as error:
        # A browser outlives its driver.
        kill_browser(browser)
        raise Stop(End.BROWSER, f"the browser ended: {first_line(error)}") from None
    except KeyboardInterrupt:
        kill_browser(browser)
        raise
    finally:
        browser.quit()
