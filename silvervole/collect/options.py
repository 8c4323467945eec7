"""The words of collector/collect."""
from __future__ import annotations

import argparse
import re
from dataclasses import dataclass
from typing import Callable, Sequence

from silvervole.words import Parser

from .browser import VIEWPORT
from .places import check_written

USAGE = "{0} URL-OR-FILE [--url ADDRESS] [--out FILE] [OPTIONS], or {0} --list FILE --out FOLDER [OPTIONS]"
LONGEST_TIMEOUT = 3600
LONGEST_SETTLE = 600_000
GREATEST_SIDE = 10_000
MOST_JOBS = 16


@dataclass(frozen=True)
class Options:
    """How pages are opened, waited for and written."""

    url: str | None = None
    wait: str = "load"
    timeout: float = 60.0
    settle: int = 0
    viewport: tuple[int, int] = VIEWPORT
    cookies: tuple[tuple[str, str], ...] = ()
    headers: tuple[tuple[str, str], ...] = ()
    exact: bool = False
    follow: bool = False
    shadow: bool = True
    frames: bool = False
    states: str | None = None
    shot: str | None = None


@dataclass(frozen=True)
class Command:
    """What the words ask for: one page and the file that it is written to, or a list of pages and a folder."""

    page: str | None
    list: str | None
    out: str
    jobs: int
    shots: bool
    options: Options


def seconds(word: str) -> float:
    """A number of seconds above 0."""
    if not re.fullmatch(r"[0-9]+(\.[0-9]+)?", word) or not 0 < float(word) <= LONGEST_TIMEOUT:
        raise argparse.ArgumentTypeError(f"{word} isn't a number of seconds above 0, at most {LONGEST_TIMEOUT}")
    return float(word)


def whole(least: int, greatest: int) -> Callable[[str], int]:
    """The type of a whole number within bounds."""
    def read(word: str) -> int:
        if not re.fullmatch(r"[0-9]{1,9}", word) or not least <= int(word) <= greatest:
            raise argparse.ArgumentTypeError(f"{word} isn't a whole number from {least} to {greatest}")
        return int(word)

    return read


def viewport(word: str) -> tuple[int, int]:
    """A width and a height in CSS pixels, as 1280x900."""
    found = re.fullmatch(r"([0-9]{1,6})x([0-9]{1,6})", word)
    sides = (int(found.group(1)), int(found.group(2))) if found else (0, 0)
    if not all(1 <= side <= GREATEST_SIDE for side in sides):
        raise argparse.ArgumentTypeError(f"{word} isn't a width and a height from 1 to {GREATEST_SIDE}, as 1280x900")
    return sides


def cookie(word: str) -> tuple[str, str]:
    """A cookie, as NAME=VALUE."""
    name, equals, value = word.partition("=")
    if not equals or not re.fullmatch(r"[!#$%&'*+.^_`|~0-9A-Za-z-]+", name):
        raise argparse.ArgumentTypeError("a cookie is NAME=VALUE")
    return name, value


def header(word: str) -> tuple[str, str]:
    """A header, as 'NAME: VALUE'."""
    name, colon, value = word.partition(":")
    if not colon or not re.fullmatch(r"[!#$%&'*+.^_`|~0-9A-Za-z-]+", name) or re.search(r"[\r\n\0]", value):
        raise argparse.ArgumentTypeError("a header is 'NAME: VALUE'")
    return name, value.strip()


def parser(program: str = "collect", example: str = "") -> Parser:
    """All words of the command."""
    made = Parser(prog=program, usage=USAGE.format(program), example=example,
                  description="Writes pages as snapshots, as headless Chromium has them. docs/use/collecting.md says more.")
    made.add_argument("page", metavar="URL-OR-FILE", nargs="?",
                      help="an http, https or file address, or a file's path")
    made.add_argument("--url", metavar="ADDRESS",
                      help="the http or https address to write as the page's; needed for a file")
    made.add_argument("--list", metavar="FILE", help="collects the pages of a list, an address a line; - is standard input")
    made.add_argument("--out", metavar="FILE|FOLDER",
                      help="the file that a page's snapshot is written to, or the folder for those of a list (standard output)")
    made.add_argument("--jobs", metavar="N", type=whole(1, MOST_JOBS), default=None,
                      help="how many browsers work beside each other on a list (1)")
    add_opening(made)
    made.add_argument("--frames", action="store_true",
                      help="writes what is in each frame too, to FILE's name with .frame-2 and so on; needs --out")
    made.add_argument("--states", metavar="FILE",
                      help="does the steps of a file, and writes a snapshot after each, to the name of --out with .state-1-NAME and so on")
    made.add_argument("--no-shadow", action="store_true", help="leaves shadow trees out")
    made.add_argument("--shot", metavar="FILE", help="writes a picture of the page, and FILE.json with each node's box")
    made.add_argument("--shots", action="store_true", help="the same for each page of a list, in the folder pictures of --out")
    return made


def add_opening(made: argparse.ArgumentParser) -> None:
    """The words on how pages are opened and waited for."""
    made.add_argument("--wait", metavar="load|network-idle|SELECTOR", default="load",
                      help="what to wait for: the load event; a quiet network; an element that the CSS selector matches (load)")
    made.add_argument("--timeout", metavar="SECONDS", type=seconds, default=60.0,
                      help="how long a page may take to load and to be ready (60)")
    made.add_argument("--settle", metavar="MS", type=whole(0, LONGEST_SETTLE), default=0,
                      help="how many milliseconds to let pass once the page is ready (0)")
    made.add_argument("--viewport", metavar="WxH", type=viewport, default=VIEWPORT,
                      help="the page's size in CSS pixels (1280x900)")
    made.add_argument("--cookie", metavar="NAME=VALUE", type=cookie, action="append", default=[],
                      help="a cookie for the page's server; as often as needed")
    made.add_argument("--header", metavar="'NAME: VALUE'", type=header, action="append", default=[],
                      help="a header of the requests to the page's server, and to no other; as often as needed")
    made.add_argument("--exact", action="store_true",
                      help="refuses a page that passes a limit, where else what no rule looks at is cut")
    made.add_argument("--follow", action="store_true", help="with --url, takes a page that moved on to another address")


def read_words(words: Sequence[str], asked: Parser | None = None) -> Command:
    """The command that the words ask for."""
    asked = asked or parser()
    given = asked.parse_args(words)
    if (given.page is None) == (given.list is None):
        asked.error("either a page or --list is needed")
    check_list_words(asked, given)
    if given.url is not None:
        check_written(given.url)
    options = Options(given.url, given.wait, given.timeout, given.settle, given.viewport,
                      tuple(given.cookie), tuple(given.header), given.exact, given.follow, not given.no_shadow,
                      given.frames, given.states, given.shot)
    return Command(given.page, given.list, given.out or "", given.jobs or 1, given.shots, options)


def check_list_words(asked: Parser, given: argparse.Namespace) -> None:
    """Refuses the words for many pages beside one page, and those for one beside a list."""
    if given.list is None:
        for word in (word for word, value in (("--jobs", given.jobs), ("--shots", given.shots)) if value):
            asked.error(f"{word} goes with --list")
        for word in (word for word, value in (("--frames", given.frames), ("--states", given.states)) if value and not given.out):
            asked.error(f"{word} writes more than one snapshot, and needs --out")
    else:
        if not given.out:
            asked.error("--list needs --out")
        for word in (word for word, value in (("--url", given.url), ("--shot", given.shot), ("--states", given.states)) if value is not None):
            asked.error(f"{word} goes with one page" + ("; a list takes --shots" if word == "--shot" else ""))
