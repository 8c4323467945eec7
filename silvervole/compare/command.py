"""The command collector/compare."""
from __future__ import annotations

import argparse
import os
from typing import Sequence

from silvervole.collect.ends import End, run_command, say, write_out
from silvervole.formats.options import add_format_options, any_format
from silvervole.view.rules import read_rules
from silvervole.words import Parser

from .books import books_told
from .changes import compare_folders
from .reading import Audit, read_audit, read_folder
from .writing import text_of

USAGE = "{0} OLD NEW [--old-snapshot FILE --new-snapshot FILE] [--earlier FILE] [--accepted FILE] [--FORMAT FILE ..]"
NEW_FAILURE = 1


def parser(program: str = "compare", example: str = "") -> Parser:
    """The words of the command."""
    made = Parser(prog=program, usage=USAGE.format(program), example=example,
                  description="Says what is new, what is mended and what stays between two audits, and ends with 1 where something "
                              "new failed. docs/use/pipeline.md says more.")
    made.add_argument("old", metavar="OLD", help="the earlier report or reply to outcomes, or a folder of reports")
    made.add_argument("new", metavar="NEW", help="the later one")
    made.add_argument("--old-snapshot", metavar="FILE", help="the earlier snapshot, of which OLD speaks")
    made.add_argument("--new-snapshot", metavar="FILE", help="the later one, of which NEW speaks")
    made.add_argument("--earlier", metavar="FILE", help="the JSON of --json of the run that made OLD, whose fingerprints are handed on")
    add_format_options(made)
    return made


def read_words(words: Sequence[str], made: Parser) -> argparse.Namespace:
    """What the words ask for."""
    given = made.parse_args(words)
    if (given.old_snapshot is None) != (given.new_snapshot is None):
        made.error("--old-snapshot and --new-snapshot go together")
    given.folders = os.path.isdir(given.old)
    if given.folders != os.path.isdir(given.new):
        made.error("OLD and NEW are both files, or both folders")
    if given.folders and given.old_snapshot is not None:
        made.error("in folders the snapshots stand beside the reports")
    return given


def audits_of(given: argparse.Namespace) -> tuple[dict[str, Audit], dict[str, Audit]]:
    """The audits of the files or folders that the words name, by the names of their pages in folders."""
    if given.folders:
        return read_folder(given.old), read_folder(given.new)
    return {"": read_audit(given.old, given.old_snapshot)}, {"": read_audit(given.new, given.new_snapshot)}


def work(words: Sequence[str], asked: Parser) -> int:
    """Writes the changes that the words ask for."""
    given, table = read_words(words, asked), read_rules()
    olds, news = audits_of(given)
    if told := books_told(olds, news, table):
        say(asked.prog, told)
    pages = compare_folders(olds, news, table)
    listing = None
    if any_format(given):
        from silvervole.formats.earlier import read_earlier  # only here, since they load slowly
        from silvervole.formats.gathering import compared
        from silvervole.formats.writing import accept, write_formats
        listing = accept(compared(pages, olds, news, table, read_earlier(given.earlier)), given, table, asked.prog)
        write_formats(listing, given)
    write_out(text_of(pages, table, listing).encode("utf-8"))
    fails = listing.fails if listing is not None else any(change.fails for page in pages for change in page.changes)
    return NEW_FAILURE if fails else End.WRITTEN


def main(words: Sequence[str], program: str = "compare", example: str = "") -> int:
    """The status of a run."""
    return run_command(program, lambda: work(words, parser(program, example)))
