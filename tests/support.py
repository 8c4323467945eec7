"""What the tests share: expectations, runs of the commands, pages in files, and one browser for many pages."""
from __future__ import annotations

import os
import pathlib
import subprocess
import tempfile
from types import TracebackType
from typing import Any

from silvervole import check_form as form
from silvervole.collect.ends import End, Stop
from silvervole.collect.options import read_words
from silvervole.collect.pages import Collected, collect_in
from silvervole.collect.places import place_of
from silvervole.collect.taking import SNAPSHOT, take

HERE = pathlib.Path(__file__).resolve().parent
ROOT = HERE.parent
COLLECTOR = ROOT / "collector"
OWN_PAGES = HERE / "collector" / "pages"
COLLECT = COLLECTOR / "collect"
VIEW = COLLECTOR / "view"
SITE = ROOT / "examples" / "library"
DESK = ROOT / "crates" / "act_desk" / "out" / "act_desk"
DOCS = ROOT / "docs" / "use" / "collecting.md"
FINDINGS = ROOT / "docs" / "use" / "findings.md"
SOURCE = SNAPSHOT.read_text(encoding="utf-8")

PAGES = {
    "home": "https://library.example/",
    "search": "https://library.example/search",
    "hours": "https://library.example/hours",
    "article": "https://library.example/article",
    "reserve": "https://library.example/reserve",
    "old": "https://library.example/old",
}


class Checks:
    """The running test: how many of its expectations were met, a line for each that wasn't, and what else is to be told."""

    met = 0
    unmet: list[str] = []
    notes: list[str] = []

    @classmethod
    def begin(cls) -> None:
        """A test begins."""
        cls.met, cls.unmet, cls.notes = 0, [], []


def note(line: str) -> None:
    """Has a line told at the end, once however many tests note it: what is left out, or a figure."""
    Checks.notes.append(line)


def expect(what: str, good: bool, detail: object = "") -> None:
    """Counts an expectation. One that isn't met lets the test go on, and fails it at its end."""
    if good:
        Checks.met += 1
    else:
        Checks.unmet.append(f"{what}{': ' if detail != '' else ''}{detail}")


def same(what: str, got: object, wanted: object) -> None:
    """Expects two values to be equal."""
    expect(what, got == wanted, f"got {str(got)[:400]!r}, wanted {str(wanted)[:400]!r}" if got != wanted else "")


def run(*words: object, env: dict[str, str] | None = None, program: pathlib.Path = COLLECT,
        stdin: Any = None, stdout: Any = subprocess.PIPE) -> tuple[int, bytes, str]:
    """The status, standard output and standard error of a program."""
    done = subprocess.run([str(program), *map(str, words)], stdin=stdin or subprocess.DEVNULL, stdout=stdout,
                          stderr=subprocess.PIPE, env=env, check=False)
    return done.returncode, done.stdout or b"", done.stderr.decode("utf-8", "replace")


def collect_page(name: str) -> tuple[int, bytes, str]:
    """Collects a page of the example site by the command."""
    return run(SITE / f"{name}.html", "--url", PAGES[name])


def refused(what: str, end: End, says: str, *words: object, env: dict[str, str] | None = None,
            program: pathlib.Path = COLLECT) -> None:
    """Expects a command to end with a status, one line that says so, and no output."""
    code, out, err = run(*words, env=env, program=program)
    expect(what, code == end and out == b"" and err.count("\n") == 1 and err.startswith(f"{program.name}: ") and says in err,
           f"status {code}, {len(out)} bytes out, {err!r}")


def collect_here(browser: Any, page: object, *words: object) -> Collected:
    """Collects a page as the command does, but in this browser."""
    command = read_words([str(page), *map(str, words)])
    # A browser that refused to leave the page before would show it still.
    browser.get("about:blank")
    return collect_in(browser, place_of(str(page)), command.options)


def refused_here(browser: Any, what: str, end: End, says: str, page: object, *words: object) -> None:
    """Expects a page to be refused as the command would refuse it."""
    try:
        collected = collect_here(browser, page, *words)
        expect(what, False, f"it is collected: {collected.text[:200]!r}")
    except Stop as stop:
        expect(what, stop.end is end and says in stop.line, f"{stop.end!r}: {stop.line}")


def well_formed(what: str, data: bytes) -> list[dict[str, Any]]:
    """The rows of a snapshot, which is expected to be well formed."""
    try:
        rows = form.check(data)
        expect(what, True)
        return rows
    except form.Fault as fault:
        expect(what, False, fault)
        return []


def take_rows(browser: Any, address: str = "https://facts.example/") -> tuple[str, list[dict[str, Any]]]:
    """The snapshot of the page that the browser shows, and its rows."""
    text = take(browser, address).text
    return text, form.check(text.encode("utf-8"))


def open_file(browser: Any, path: str | os.PathLike[str]) -> None:
    """Opens a file in the browser."""
    browser.get(pathlib.Path(path).resolve().as_uri())


class page:
    """A page in a file for the time of a with statement."""

    def __init__(self, body: str = "", whole: str | None = None) -> None:
        self.text = whole if whole is not None else f"<!DOCTYPE html><html><head></head><body>{body}"

    def __enter__(self) -> str:
        handle, self.path = tempfile.mkstemp(suffix=".html")
        with os.fdopen(handle, "w", encoding="utf-8") as file:
            file.write(self.text)
        return self.path

    def __exit__(self, kind: type[BaseException] | None, error: BaseException | None, trace: TracebackType | None) -> None:
        os.unlink(self.path)
