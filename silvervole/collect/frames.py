"""Collects the documents of a page's frames, each as a snapshot of its own."""
from __future__ import annotations

import contextlib
import json
import re
import time
from dataclasses import dataclass
from typing import Any, Iterator

from .ends import End, Stop, first_line
from .loading import HTML_TYPES
from .taking import Taken, Wanted, take

STEP_SECONDS = 0.1
MOST_FRAMES = 100

# One process for all frames: what is given to a page's document before its scripts is given to theirs too.
TOGETHER = ("--disable-site-isolation-trials", "--disable-features=IsolateOrigins,site-per-process,IsolateSandboxedIframes")

# Sources that leave a frame with an empty document, or with what scripts write into it.
EMPTY = re.compile(r"\s*(about|javascript):", re.IGNORECASE)

# Where the driver doesn't get into a frame, it runs the script in the document around it.
INSIDE = """
let depth = 0;
for (let up = window; up !== up.parent; up = up.parent) depth += 1;
const type = Object.getOwnPropertyDescriptor(Document.prototype, 'contentType').get.call(document);
const state = Object.getOwnPropertyDescriptor(Document.prototype, 'readyState').get.call(document);
const entry = performance.getEntriesByType('navigation')[0];
return { depth, type, state, address: location.href, status: entry ? entry.responseStatus || 0 : 0 };
"""
# The driver marks the frames it was sent into.
CLEAN = "for (const frame of arguments) frame.removeAttribute('cd_frame_id_');"
FOCUSED = "return document.activeElement"
REFOCUS = """
const [before] = arguments;
const now = document.activeElement;
if (before && before !== document.body && before !== now) before.focus({ preventScroll: true });
else if (now && now !== before) now.blur();
"""


@dataclass
class FrameDocument:
    """What was taken of a frame: its snapshot, or why there is none."""

    number: int
    text: str
    notes: tuple[str, ...]


class Frames:
    """Goes through the frames of the page whose snapshot was just taken, counted from 2: the page itself is the first document."""

    def __init__(self, browser: Any, wanted: Wanted, end: float) -> None:
        self.browser = browser
        self.wanted = wanted._replace(boxes=False)
        self.end = end
        self.count = 1
        self.address = ""

    def documents(self, page: Taken) -> Iterator[FrameDocument]:
        """What is in the frames of the page, each one's own frames after it."""
        self.address = address_of(page.text)
        before = self.browser.execute_script(FOCUSED)
        yield from self.below(page, 1)
        self.browser.execute_script(REFOCUS, before)

    def below(self, taken: Taken, depth: int) -> Iterator[FrameDocument]:
        """What is in the frames of the document that the browser is in, which has so many around its frames."""
        for frame in taken.frames:
            self.count += 1
            number = self.count
            if number > MOST_FRAMES:
                yield FrameDocument(number, "", (f"no more than {MOST_FRAMES - 1} frames are looked into",))
                return
            yield from self.inside(frame, number, depth)

    def inside(self, frame: dict[str, Any], number: int, depth: int) -> Iterator[FrameDocument]:
        """What is in a frame, and in those within it."""
        from selenium.common.exceptions import InvalidSessionIdException, StaleElementReferenceException, WebDriverException

        named = f"frame {number} (node {frame['node']}{', ' + frame['source'] if frame['source'] else ''})"
        try:
            self.browser.switch_to.frame(frame["element"])
        except InvalidSessionIdException:
            raise  # the browser ended
        except WebDriverException as error:
            yield FrameDocument(number, "", (f"{named} can't be looked into: {first_line(error)}",))
            return
        try:
            taken = self.taken(frame["source"], number, depth)
        except InvalidSessionIdException:
            raise  # the browser ended
        except (Stop, WebDriverException) as error:
            why = error.line if isinstance(error, Stop) else first_line(error)
            yield FrameDocument(number, "", (f"{named} can't be looked into: {why}",))
        else:
            yield FrameDocument(number, taken.text, tuple(f"frame {number}: {cut}" for cut in taken.cuts))
            yield from self.below(taken, depth + 1)
        self.browser.switch_to.parent_frame()
        with contextlib.suppress(StaleElementReferenceException):
            self.browser.execute_script(CLEAN, frame["element"])

    def taken(self, source: str, number: int, depth: int) -> Taken:
        """The snapshot of the frame's document that the browser was sent into, or a Stop."""
        there = self.ready(source, depth)
        address = None if there["address"].startswith(("http:", "https:")) else f"{self.address}#frame-{number}"
        return take(self.browser, address, self.wanted._replace(frame=number))

    def ready(self, source: str, depth: int) -> dict[str, Any]:
        """What is told of the frame's document, once it has loaded."""
        while True:
            there = self.browser.execute_script(INSIDE)
            # Before any other a frame has an empty document, which is complete.
            is_first = there["address"] == "about:blank" and source and not EMPTY.match(source)
            if there["depth"] == depth and there["state"] == "complete" and not is_first:
                break
            if time.monotonic() >= self.end:
                raise Stop(End.TIME, "it hasn't loaded in time")
            time.sleep(STEP_SECONDS)
        if there["address"].startswith("chrome-error:"):
            raise Stop(End.LOAD, "it doesn't load")
        if there["status"] >= 400:
            raise Stop(End.LOAD, f"the server answered with status {there['status']}")
        if there["type"] not in HTML_TYPES:
            raise Stop(End.NOT_HTML, f"it isn't an HTML page: its type is {there['type']}")
        return there


def address_of(text: str) -> str:
    """The address that a snapshot is written under, without a fragment."""
    return str(json.loads(text[:text.index("\n")] + "]}")["url"]).partition("#")[0]
