"""The word init."""
from __future__ import annotations

import os
import shlex
import sys
from typing import Sequence

from silvervole.collect.ends import End, Stop, run_command, write_file, write_out
from silvervole.formats.options import FORMATS
from silvervole.words import Parser

from .reading import FILE, KEYS, settings_in
from .writing import Answers, settings_text

USAGE = "{0} [ADDRESS|FILE ..] [--settings FILE] [--defaults] [--force]"


def parser(program: str = "init", example: str = "") -> Parser:
    """The words of the command."""
    made = Parser(prog=program, usage=USAGE.format(program), example=example,
                  description=f"Writes {FILE} with a comment on each setting: on a terminal from answers, else from defaults.")
    made.add_argument("pages", metavar="ADDRESS|FILE", nargs="*", help="the pages that are to be checked")
    made.add_argument("--settings", metavar="FILE", default=FILE, help=f"the file to write ({FILE})")
    made.add_argument("--defaults", action="store_true", help="asks nothing")
    made.add_argument("--force", action="store_true", help="writes over a file that is there")
    return made


def ask(question: str) -> str:
    """The answer of whoever sits at the terminal; empty where there is none."""
    sys.stderr.write(f"{question} ")
    sys.stderr.flush()
    return sys.stdin.readline().strip()


def number(answer: str) -> str:
    """An answer that is a whole number or empty."""
    if answer and not answer.isdecimal():
        raise Stop(End.USAGE, f"{answer} is no whole number")
    return answer


def asked(pages: Sequence[str]) -> Answers:
    """The answers to what the settings need."""
    addresses = tuple(pages) or tuple(ask("Which pages are to be checked? Addresses or files, with spaces between:").split())
    wait = ask("What is to be waited for: load, network-idle, or a CSS selector? [load]")
    sign_in = tuple(shlex.split(ask("Which command signs in and prints cookies? [none]")))
    budget = number(ask("How many failures don't fail the check? [0]"))
    formats = tuple(ask(f"Which formats are to be written, of {', '.join(FORMATS)}? [none]").replace(",", " ").split())
    unknown = next((name for name in formats if name not in FORMATS), None)
    if unknown is not None:
        raise Stop(End.USAGE, f"{unknown} is no format: there are {', '.join(FORMATS)}")
    return Answers(addresses, wait, sign_in, budget, formats)


def work(words: Sequence[str], given_by: Parser) -> int:
    """Writes the file, once it reads as settings."""
    given = given_by.parse_args(words)
    if os.path.exists(given.settings) and not given.force:
        raise Stop(End.USAGE, f"{given.settings} is there already; --force writes over it")
    on_terminal = sys.stdin is not None and sys.stdin.isatty() and sys.stderr is not None
    answers = asked(given.pages) if on_terminal and not given.defaults else Answers(tuple(given.pages))
    data = settings_text(answers).encode("utf-8")
    settings_in(data, given.settings, {option for keys in KEYS.values() for option, _ in keys.values()}, FORMATS)
    write_file(given.settings, data)
    named = "" if answers.addresses else "name the pages there; then "
    write_out(f"{given.settings} is written: {named}`silvervole check` checks its pages\n".encode("utf-8", "replace"))
    return End.WRITTEN


def main(words: Sequence[str], program: str = "init", example: str = "") -> int:
    """The status of a run."""
    return run_command(program, lambda: work(words, parser(program, example)))
