"""The words of check, and the settings that stand in for those that aren't given."""
from __future__ import annotations

import argparse
import os
import shlex
from dataclasses import dataclass
from typing import Any, Sequence

from silvervole.books import add_book
from silvervole.collect.ends import End, Stop
from silvervole.collect.options import MOST_JOBS, Options, add_opening, whole
from silvervole.collect.places import check_written
from silvervole.formats.options import FORMATS, add_format_options, any_format
from silvervole.settings.reading import FILE, MOST_BUDGET, NO_SETTINGS, Settings, read_settings
from silvervole.settings.sign_in import SignIn
from silvervole.words import Parser

from .subjects import Subject, check_names

USAGE = "{0} ADDRESS|FILE.. [OPTIONS], or {0} --list FILE [OPTIONS], or {0} [OPTIONS] with the pages of silvervole.toml"


@dataclass(frozen=True)
class Checking:
    """What is to be checked, and how; `given` holds the words on formats."""

    subjects: tuple[Subject, ...]
    options: Options
    sign_in: SignIn | None
    jobs: int
    out: str
    budget: int
    passed: bool
    book: str
    given: argparse.Namespace


def parser(program: str = "check", example: str = "") -> Parser:
    """The words of the command."""
    made = Parser(prog=program, usage=USAGE.format(program), example=example,
                  description="Collects pages, audits them, and tells what was found: what it is, where, what it means and what usually mends "
                              "it. Ends with 1 where something failed. docs/use/silvervole.md says more.")
    made.add_argument("pages", metavar="ADDRESS|FILE", nargs="*", help="an http or https address, an HTML file, or a snapshot")
    made.add_argument("--url", metavar="ADDRESS", help="the http or https address to write as that of the one file (one made of its path)")
    made.add_argument("--list", metavar="FILE", help="checks the pages of a list, an address a line; - is standard input")
    made.add_argument("--jobs", metavar="N", type=whole(1, MOST_JOBS), default=1, help="how many browsers work beside each other (1)")
    add_opening(made)
    made.add_argument("--frames", action=argparse.BooleanOptionalAction, help="checks what is in each frame too")
    made.add_argument("--states", metavar="FILE", help="does the steps of a file, and checks the page again after each")
    made.add_argument("--shadow", action=argparse.BooleanOptionalAction, help="takes shadow trees too (it does)")
    made.add_argument("--shots", action="store_true", help="takes a picture of each page, for --html and --json")
    made.add_argument("--out", metavar="FOLDER", default="", help="keeps the snapshots and the reports in a folder, as compare reads them")
    add_book(made)
    made.add_argument("--budget", metavar="N", type=whole(0, MOST_BUDGET), default=0, help="how many failures don't fail the check (0)")
    made.add_argument("--passed", action="store_true", help="tells what passed too")
    made.add_argument("--sign-in", metavar="COMMAND", type=shlex.split,
                      help="a command that prints `cookie NAME=VALUE` and `header NAME: VALUE` lines, with which pages are asked")
    add_format_options(made)
    made.add_argument("--settings", metavar="FILE", help=f"the file of settings ({FILE}, where it is there)")
    return made


def read_words(words: Sequence[str], asked: Parser) -> Checking:
    """What the words and the settings ask for."""
    settings = settings_of(asked.parse_args(words).settings, asked)
    values = {option: value for option, value in settings.values.items() if option != "list"}
    asked.set_defaults(**values)
    given = asked.parse_args(words)
    subjects = subjects_of(given, settings, asked)
    if given.out:
        check_names(subjects)
    options = Options(None, given.wait, given.timeout, given.settle, given.viewport, tuple(given.cookie), tuple(given.header),
                      given.exact, given.follow, given.shadow is not False, bool(given.frames),
                      shot="" if given.shots and any_format(given) else None)
    return Checking(subjects, options, sign_in_of(given, settings, subjects), given.jobs, given.out, given.budget, given.passed, given.book, given)


def settings_of(path: str | None, asked: Parser) -> Settings:
    """The settings of the named file, or of the folder's own where there is one."""
    if path is None and not os.path.exists(FILE):
        return NO_SETTINGS
    options: dict[str, Any] = vars(asked.parse_args([]))
    return read_settings(path or FILE, set(options), FORMATS)


def subjects_of(given: argparse.Namespace, settings: Settings, asked: Parser) -> tuple[Subject, ...]:
    """The pages of the words, else those of the settings."""
    if given.pages and given.list is not None:
        asked.error("either pages or --list is given")
    if given.pages:
        return named_subjects(given, asked)
    if given.list is None and settings.pages:
        return tuple(Subject(page.page, page.url, page.states or given.states) for page in settings.pages)
    path = given.list or settings.values.get("list")
    if path is None:
        asked.error(f"no page is named, and no {FILE} names one (`silvervole init` writes it)")
    for word, value in (("--url", given.url), ("--states", given.states)):
        if value is not None:
            asked.error(f"{word} goes with one page")
    from silvervole.collect.many import read_list  # only here, since it loads slowly
    return tuple(Subject(page.page, page.url) for page in read_list(path))


def named_subjects(given: argparse.Namespace, asked: Parser) -> tuple[Subject, ...]:
    """The pages that stand in the words."""
    if given.url is not None:
        check_written(given.url)
    for word, value in (("--url", given.url), ("--states", given.states)):
        if value is not None and len(given.pages) > 1:
            asked.error(f"{word} goes with one page")
    return tuple(Subject(page, given.url, given.states) for page in given.pages)


def sign_in_of(given: argparse.Namespace, settings: Settings, subjects: Sequence[Subject]) -> SignIn | None:
    """The sign-in, where there is one and some page is a server's; a Stop where it would go to more than one server."""
    servers = sorted({subject.server for subject in subjects if subject.server})
    if not given.sign_in or not servers:
        return None
    if len(servers) > 1:
        raise Stop(End.USAGE, f"a sign-in is for one server, and the pages are of {servers[0]} and {servers[1]}")
    from_settings = given.sign_in == settings.values.get("sign_in")
    return SignIn(given.sign_in, os.path.dirname(settings.path) or None if from_settings else None)
