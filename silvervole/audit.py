"""The word audit: one audit by the desk's program, whose report and status stay as they are."""
from __future__ import annotations

import subprocess
import sys
from typing import IO, Sequence

from silvervole.books import THIRTY, add_book
from silvervole.collect.ends import End, Stop, run_command, say
from silvervole.faults import fault_of
from silvervole.program import FAILED, FOUND, start_audit
from silvervole.words import Parser


def parser(program: str = "audit", example: str = "") -> Parser:
    """The words of the command."""
    made = Parser(prog=program, usage=f"{program} [SNAPSHOT] [--book BOOK]", example=example,
                  description="Writes the desk's text report of a snapshot on standard output, and ends with the program's own status. "
                              "docs/use/desk.md says more.")
    made.add_argument("snapshot", metavar="SNAPSHOT", nargs="?", default="-", help="the page's snapshot; - is standard input (-)")
    add_book(made)
    return made


def audit(program: str, given: IO[bytes] | int, book: str = THIRTY) -> int:
    """The program's status of an audit; where it refuses, that is said in words on standard error."""
    process = start_audit(given, sys.stdout.fileno(), book)
    _, said = process.communicate()
    fault = fault_of(process.returncode, said)
    if fault.status not in (FOUND, FAILED):
        say(program, f"the desk refuses the audit: {fault}")
    return fault.status


def work(words: Sequence[str], program: str, asked: Parser) -> int:
    """The status of an audit of the file that the words name."""
    asked_for = asked.parse_args(words)
    path, book = asked_for.snapshot, asked_for.book
    if path == "-":
        return audit(program, sys.stdin.fileno() if sys.stdin is not None else subprocess.DEVNULL, book)
    try:
        with open(path, "rb") as file:
            return audit(program, file, book)
    except OSError as error:
        raise Stop(End.INPUT, f"{path} can't be read: {error.strerror}") from None


def main(words: Sequence[str], program: str = "audit", example: str = "") -> int:
    """The status of a run."""
    return run_command(program, lambda: work(words, program, parser(program, example)))
