"""What all tests by pytest share: what is left out and why, a browser, a made folder, and the count of what was expected."""
from __future__ import annotations

import contextlib
import signal
import tempfile
from collections import Counter
from typing import Any, Iterator

import pytest

from silvervole.collect.browser import find_tools, kill_browser, start_browser
from silvervole.collect.ends import Stop, quiet_libraries

from .support import DESK, ROOT, Checks


def pytest_configure() -> None:
    """What a test starts is to be interrupted, also where a shell runs the tests in the background, which ignores interrupts."""
    signal.signal(signal.SIGINT, signal.default_int_handler)


def pytest_collection_modifyitems(items: list[pytest.Item]) -> None:
    """Leaves out what needs the built program, where it isn't built."""
    if not DESK.is_file():
        left_out = pytest.mark.skip(reason=f"the desk isn't built ({DESK.relative_to(ROOT)})")
        for item in items:
            if item.get_closest_marker("desk"):
                item.add_marker(left_out)


def pytest_runtest_setup() -> None:
    """Each test begins with no expectation."""
    Checks.begin()


@pytest.hookimpl(trylast=True)
def pytest_runtest_call(item: pytest.Item) -> None:
    """A test fails where one of its expectations wasn't met; how many were is told at the end."""
    item.user_properties.extend([("met", Checks.met), ("notes", Checks.notes)])
    if Checks.unmet:
        pytest.fail("\n".join(Checks.unmet), pytrace=False)


def pytest_terminal_summary(terminalreporter: Any) -> None:
    """Says which tests were left out, what others noted, and how many expectations were met; a test of assertions alone is one."""
    reasons = Counter(report.longrepr[2].removeprefix("Skipped: ") for report in terminalreporter.getreports("skipped"))
    for reason, tests in reasons.items():
        terminalreporter.write_line(f"{tests} tests left out: {reason}")
    reports = [report for kind in ("passed", "failed") for report in terminalreporter.getreports(kind) if report.when == "call"]
    told = [dict(report.user_properties) for report in reports]
    for line in sorted({line for properties in told for line in properties.get("notes", [])}):
        terminalreporter.write_line(line)
    met = sum(properties.get("met") or report.passed for report, properties in zip(reports, told))
    terminalreporter.write_line(f"{met:,} expectations were met")


class Shared:
    """A Chromium for all tests that open their pages in one, begun anew where its tab crashed or it ended; each process of tests has its own."""

    def __init__(self) -> None:
        self.started: Any = None

    def get(self) -> Any:
        """The browser, which answers."""
        if self.started is not None and not self.answers():
            kill_browser(self.started)
            self.end()
        if self.started is None:
            self.started = start_browser()
        return self.started

    def end(self) -> None:
        """Ends the browser, where it hasn't ended, and its driver."""
        from selenium.common.exceptions import WebDriverException
        if self.started is not None:
            with contextlib.suppress(WebDriverException, OSError):
                self.started.quit()
            self.started = None

    def answers(self) -> bool:
        """Whether its tab does what it is told."""
        from selenium.common.exceptions import WebDriverException
        try:
            self.started.get("about:blank")
            return True
        except (WebDriverException, OSError):
            return False


@pytest.fixture(scope="session")
def shared() -> Iterator[Shared]:
    """The browser of all tests of this process."""
    try:
        find_tools()
    except Stop as stop:
        pytest.skip(stop.line)
    quiet_libraries()
    made = Shared()
    yield made
    made.end()


@pytest.fixture
def browser(shared: Shared) -> Any:
    """A Chromium that other tests used before."""
    return shared.get()


@pytest.fixture
def folder() -> Iterator[str]:
    """An empty folder of the test's own, to which everybody on this machine may be given a way."""
    with tempfile.TemporaryDirectory() as made:
        yield made
