"""Collects the pages of cases, many at once, in browsers that go from page to page."""
from __future__ import annotations

import concurrent.futures
import dataclasses
import queue
from typing import Any, Generator, Sequence

from silvervole.collect.browser import Browsers, kill_browser, start_browser
from silvervole.collect.ends import End, Stop, first_line
from silvervole.collect.options import Options
from silvervole.collect.pages import Visit
from silvervole.collect.places import Place, place_of

from .reading import Case, page_of

# A page is judged as it is written, so it stays where it would lead on: by a refresh without delay, or by a script.
STAY = """if (window === window.top && window.navigation) {
  navigation.addEventListener('navigate', (event) => { if (event.cancelable && !event.hashChange) event.preventDefault(); });
}"""


@dataclasses.dataclass(frozen=True)
class Tried:
    """A case, with its page's snapshot and what there is to tell of it, or why there is none."""

    case: Case
    snapshot: bytes = b""
    notes: tuple[str, ...] = ()
    stop: Stop | None = None


class Worker:
    """Collects cases one after another, in one browser as long as that is well."""

    def __init__(self, folder: str, options: Options, browsers: Browsers) -> None:
        self.folder = folder
        self.options = options
        self.browsers = browsers
        self.browser: Any = None

    def all(self, waiting: queue.SimpleQueue[Case], done: queue.SimpleQueue[Tried | BaseException]) -> None:
        """Collects what waits, until nothing does."""
        try:
            while not self.browsers.stopped:
                done.put(self.one(waiting.get_nowait()))
        except queue.Empty:
            pass
        except BaseException as error:  # whoever waits for the cases has to be told
            done.put(error)
        finally:
            self.close()

    def one(self, case: Case) -> Tried:
        """A case's page; a browser that went from page to page and ended is no fault of the last, so that is tried once more."""
        is_new = self.browser is None
        try:
            try:
                return self.collected(case)
            except Stop as stop:
                self.close()
                if stop.end is not End.BROWSER or is_new or self.browsers.stopped:
                    raise
                return self.collected(case)
        except Stop as stop:
            self.close()
            return Tried(case, stop=stop)

    def collected(self, case: Case) -> Tried:
        """A case's page in the browser, which is started where there is none."""
        place = place_of(page_of(case, self.folder))
        if self.browser is None:
            self.browser = start_browser(self.options.viewport, scripts=(STAY,))
        from selenium.common.exceptions import WebDriverException
        from urllib3.exceptions import HTTPError
        try:
            with self.browsers.holding(self.browser):
                return self.visited(case, place)
        except (WebDriverException, HTTPError, OSError) as error:
            raise Stop(End.BROWSER, f"the browser ended: {first_line(error)}") from None

    def visited(self, case: Case, place: Place) -> Tried:
        """What the browser has of the case's page, written under the case's address."""
        # A browser that refused to leave the page before would show it still.
        self.browser.get("about:blank")
        visit = Visit(self.browser, place, dataclasses.replace(self.options, url=case.address))
        page = visit.page(None)[1]
        return Tried(case, page.text.encode("utf-8"), tuple(filter(None, (*page.notes, visit.closed()))))

    def close(self) -> None:
        """Ends the browser, where there is one, whatever it is at."""
        browser, self.browser = self.browser, None
        if browser is not None:
            kill_browser(browser)
            browser.quit()


def collected(cases: Sequence[Case], folder: str, options: Options, jobs: int) -> Generator[Tried, None, None]:
    """The pages of cases, each as soon as it is there, from so many browsers beside each other."""
    browsers = Browsers()
    waiting: queue.SimpleQueue[Case] = queue.SimpleQueue()
    done: queue.SimpleQueue[Tried | BaseException] = queue.SimpleQueue()
    for case in cases:
        waiting.put(case)
    with concurrent.futures.ThreadPoolExecutor(jobs) as pool:
        try:
            for _ in range(min(jobs, len(cases))):
                pool.submit(Worker(folder, options, browsers).all, waiting, done)
            for _ in cases:
                got = done.get()
                if isinstance(got, BaseException):
                    raise got
                yield got
        except BaseException:
            browsers.close()
            raise
