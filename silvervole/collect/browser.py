"""Chromium and its driver: where they are, how they are started, and those that are at work."""
from __future__ import annotations

import contextlib
import os
import pathlib
import shutil
import signal
import threading
from typing import Any, Iterator, NamedTuple, Sequence

from .ends import End, Stop, first_line, quiet_libraries

CHROMIUM_NAMES = ("chromium", "chromium-browser", "google-chrome", "google-chrome-stable")
DRIVER_NAMES = ("chromedriver",)
INSTALL = "on Debian: apt-get install chromium chromium-driver python3-selenium"

# One size, one language and one scale, so that a page that looks at them gives
# the same snapshot on every machine.
VIEWPORT = (1280, 900)
LANGUAGE = "en-GB"

# A dialog holds up the page until it is closed. Here each is closed before it is
# shown, as by a user who dismisses it, however many there are.
CLOSED_DIALOGS = "window.alert = () => undefined; window.confirm = () => false; window.prompt = () => null;"
# What has to run before a page's own scripts.
INTERNALS = pathlib.Path(__file__).resolve().parent / "internals.js"


class Tools(NamedTuple):
    """What a browser is started with."""

    webdriver: Any
    chromium: str
    driver: str


def find_tools() -> Tools:
    """The selenium package, which writes no lines of its own, and the paths of Chromium and its driver."""
    quiet_libraries()
    try:
        from selenium import webdriver
    except ImportError:
        raise Stop(End.BROWSER, f"Python's selenium isn't there ({INSTALL})") from None
    return Tools(webdriver, find_program("Chromium", CHROMIUM_NAMES), find_program("Chromium's driver", DRIVER_NAMES))


def find_program(what: str, names: Sequence[str]) -> str:
    """The path of the first of these programs that is there."""
    for name in names:
        if (path := shutil.which(name)) is not None:
            return path
    raise Stop(End.BROWSER, f"{what} isn't there ({INSTALL})")


def chromium_options(tools: Tools, viewport: tuple[int, int], arguments: Sequence[str]) -> Any:
    """Chromium without a window, in one language, with its network told to the driver."""
    options = tools.webdriver.ChromeOptions()
    options.binary_location = tools.chromium
    options.set_capability("unhandledPromptBehavior", "dismiss")
    options.set_capability("goog:loggingPrefs", {"performance": "ALL"})
    options.add_experimental_option("prefs", {"intl.accept_languages": LANGUAGE})
    options.add_argument("--headless=new")
    options.add_argument(f"--window-size={viewport[0]},{viewport[1]}")
    options.add_argument(f"--lang={LANGUAGE}")
    options.add_argument("--force-device-scale-factor=1")
    # A scrollbar would take some of the width, and none of the picture's.
    options.add_argument("--hide-scrollbars")
    options.add_argument("--no-first-run")
    # Containers often give /dev/shm too little room for a page's memory.
    options.add_argument("--disable-dev-shm-usage")
    if hasattr(os, "geteuid") and os.geteuid() == 0:
        # Chromium's sandbox refuses to start as root.
        options.add_argument("--no-sandbox")
    for argument in arguments:
        options.add_argument(argument)
    return options


def start_browser(viewport: tuple[int, int] = VIEWPORT, arguments: Sequence[str] = (), scripts: Sequence[str] = ()) -> Any:
    """A browser with an empty profile of its own, whose pages have the size of the viewport; the scripts run in each before its own."""
    tools = find_tools()
    from selenium.common.exceptions import WebDriverException
    from selenium.webdriver.chrome.service import Service

    options = chromium_options(tools, viewport, arguments)
    try:
        browser = tools.webdriver.Chrome(service=Service(tools.driver), options=options)
    except (WebDriverException, OSError) as error:
        raise Stop(End.BROWSER, f"the browser doesn't start: {first_line(error)}") from None
    try:
        # A window's size includes the browser's own bars, which differ; this is the page's.
        browser.execute_cdp_cmd("Emulation.setDeviceMetricsOverride", {
            "width": viewport[0], "height": viewport[1], "deviceScaleFactor": 1, "mobile": False})
        for source in (CLOSED_DIALOGS, INTERNALS.read_text(encoding="utf-8"), *scripts):
            browser.execute_cdp_cmd("Page.addScriptToEvaluateOnNewDocument", {"source": source})
        browser.execute_cdp_cmd("Page.setLifecycleEventsEnabled", {"enabled": True})
    except WebDriverException as error:
        browser.quit()
        raise Stop(End.BROWSER, f"the browser doesn't start: {first_line(error)}") from None
    return browser


def kill_browser(browser: Any) -> None:
    """Ends a browser at once: to be asked to end, it would first finish what it does."""
    try:
        os.kill(browser.capabilities["goog:processID"], signal.SIGKILL)
    except (KeyError, OSError):
        pass  # it has ended, or is of an age that doesn't tell; then it is asked


class Browsers:
    """The browsers at work, so that an interruption can close them."""

    def __init__(self) -> None:
        self.lock = threading.Lock()
        self.open: list[Any] = []
        self.stopped = False

    @contextlib.contextmanager
    def holding(self, browser: Any) -> Iterator[None]:
        """Takes note of a browser for as long as it is at work."""
        with self.lock:
            if self.stopped:
                raise Stop(End.INTERRUPTED, "interrupted")
            self.open.append(browser)
        try:
            yield
        finally:
            with self.lock:
                self.open.remove(browser)

    def close(self) -> None:
        """Closes all, and lets no page begin any more."""
        with self.lock:
            self.stopped = True
            for browser in self.open:
                kill_browser(browser)
