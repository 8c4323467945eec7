"""The command collector/send."""
from __future__ import annotations

import argparse
from dataclasses import dataclass
from typing import Sequence

from silvervole.books import add_book
from silvervole.collect.ends import End, run_command, write_out
from silvervole.collect.options import MOST_JOBS, Options, add_opening, whole
from silvervole.collect.places import check_written
from silvervole.desk.asking import Desk
from silvervole.desk.words import add_desk_words, desk_of
from silvervole.view.rules import read_rules
from silvervole.words import Parser

from .delivery import prepare, send_page
from .kept import target_of
from .many import send_list
from .rehearsal import Rehearsal
from .shots import put_picture
from .telling import TRIAL, text_of
from .version import version_of

USAGE = "{0} --desk ADDRESS [--caller NAME] SITE/PAGE FILE|ADDRESS [OPTIONS], or {0} --desk ADDRESS [--caller NAME] --list FILE [OPTIONS]"


@dataclass(frozen=True)
class Command:
    """What the words ask for: a page and the file or the address of its next version, or a list of such; and how."""

    target: str | None
    source: str
    list: str | None
    trial: bool
    book: str | None
    picture: str | None
    options: Options
    jobs: int


def parser(program: str = "send", example: str = "") -> Parser:
    """All words of the command."""
    made = Parser(prog=program, usage=USAGE.format(program), example=example,
                  description="Sends the next version of a page to the desk. Its elements keep their numbers, so that judgements go on "
                              "counting. docs/use/team.md says more.")
    made.add_argument("target", metavar="SITE/PAGE", nargs="?", help="the page at the desk")
    made.add_argument("source", metavar="FILE|ADDRESS", nargs="?", help="a snapshot, or the address or the file of a page to collect")
    made.add_argument("--list", metavar="FILE", help="sends the pages of a list: on each line SITE/PAGE and FILE or ADDRESS; - is standard input")
    made.add_argument("--jobs", metavar="N", type=whole(1, MOST_JOBS), default=None,
                      help="how many browsers work beside each other on a list (1)")
    add_desk_words(made)
    made.add_argument("--dry-run", action="store_true", help="says what would become of the page, and sends nothing")
    add_book(made, None, ", for --dry-run (the one of the kept page)")
    made.add_argument("--shot", action="store_true", help="sends a picture of the collected page too")
    made.add_argument("--picture", metavar="PICTURE", help="sends the picture that collect --shot wrote with FILE")
    made.add_argument("--url", metavar="ADDRESS", help="the http or https address to write as the page's; needed for a file that is no snapshot")
    add_opening(made)
    made.add_argument("--no-shadow", action="store_true", help="leaves shadow trees out")
    return made


def read_words(words: Sequence[str], asked: Parser) -> tuple[Command, Desk]:
    """What the words ask for, and the desk that they name."""
    given = asked.parse_args(words)
    if (given.list is None) != (given.source is not None) or (given.list is not None and given.target is not None):
        asked.error("either SITE/PAGE and FILE or ADDRESS are needed, or --list")
    for word in (word for word, value in (("--url", given.url), ("--picture", given.picture)) if value is not None and given.list is not None):
        asked.error(f"{word} goes with one page")
    if given.jobs is not None and given.list is None:
        asked.error("--jobs goes with --list")
    if given.book is not None and not given.dry_run:
        asked.error("--book goes with --dry-run: a desk has its own")
    if given.url is not None:
        check_written(given.url)
    command = Command(given.target, given.source or "", given.list, given.dry_run, given.book, given.picture, options_of(given), given.jobs or 1)
    return command, desk_of(given)


def options_of(given: argparse.Namespace) -> Options:
    """How pages are opened."""
    return Options(given.url, given.wait, given.timeout, given.settle, given.viewport, tuple(given.cookie), tuple(given.header),
                   given.exact, given.follow, not given.no_shadow, shot="" if given.shot else None)


def send_one(command: Command, desk: Desk) -> End:
    """Sends one page, and says what became of it."""
    target, table = target_of(command.target or ""), read_rules()
    version = version_of(command.source, command.options, command.picture)
    if command.trial:
        with Rehearsal(table, command.book) as rehearsal:
            write_out(text_of(rehearsal.send(prepare(desk, target, version)), TRIAL, table).encode("utf-8"))
        return End.WRITTEN
    sent = send_page(desk, target, version)
    write_out(text_of(sent, f"revision {sent.revision}", table).encode("utf-8"))
    put_picture(desk, sent.prepared, sent.revision)
    return End.WRITTEN


def main(words: Sequence[str], program: str = "send", example: str = "") -> int:
    """The status of a run."""
    def work() -> int:
        command, desk = read_words(words, parser(program, example))
        if command.list is None:
            return send_one(command, desk)
        return send_list(command.list, desk, command.options, command.trial, command.jobs, command.book)

    return run_command(program, work)
