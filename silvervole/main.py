"""The command silvervole: each of its words is a command of its own."""
from __future__ import annotations

import importlib
import os
import sys
from dataclasses import dataclass
from types import ModuleType
from typing import Sequence

from silvervole import __version__
from silvervole.collect.ends import End, Stop, run_command, write_out
from silvervole.words import Parser

NAME = "silvervole"
USAGE = f"{NAME} WORD .., or {NAME} WORD --help"
COMPLETING = "_ARGCOMPLETE"


@dataclass(frozen=True)
class Word:
    """A word: the module that has its parser and its main, what it does, and an example."""

    module: str
    does: str
    example: str

    def load(self) -> ModuleType:
        """The module, which is loaded only now, so that each word loads no more than it needs."""
        return importlib.import_module(self.module)


WORDS = {
    "check": Word("silvervole.check.command", "collects pages, audits them, and tells what was found",
                  "silvervole check https://www.example.org/ build/about.html"),
    "collect": Word("silvervole.collect.command", "takes snapshots of pages", "silvervole collect https://www.example.org/ > page.json"),
    "audit": Word("silvervole.audit", "writes the desk's report of a snapshot", "silvervole audit page.json > page.txt"),
    "view": Word("silvervole.view.command", "writes the findings of a report as HTML", "silvervole view page.json page.txt > page.html"),
    "compare": Word("silvervole.compare.command", "says what is new between two audits", "silvervole compare baseline audit --junit junit.xml"),
    "send": Word("silvervole.send.command", "sends the next version of a page to the desk",
                 "silvervole send --desk http://127.0.0.1:8080 --caller ann acme/home page.json"),
    "serve": Word("silvervole.serve.command", "serves the desk over HTTP", "silvervole serve desk.db --port 8080"),
    "cases": Word("silvervole.cases.command", "tries test cases of ACT rules, and says how the desk fares",
                  "silvervole cases testcases.json --earl report.jsonld"),
    "earl": Word("silvervole.earl.command", "gives judgements of another tool, as EARL, to the desk",
                 "silvervole earl --desk http://127.0.0.1:8080 --caller bob acme/home judged.jsonld"),
    "init": Word("silvervole.settings.command", "writes silvervole.toml, the settings of check", "silvervole init https://www.example.org/"),
}


def help_text() -> str:
    """What the command says of itself: its words, a line for each."""
    longest = max(map(len, WORDS))
    lines = "".join(f"  {name:{longest}}  {word.does}\n" for name, word in WORDS.items())
    return (f"usage: {USAGE}\n\nAccessibility audits of web pages.\n\n{lines}\n  --version  says the version, and where the desk's program is\n"
            f"\ndocs/use/silvervole.md has the words, the settings and the statuses.\n\nexample:\n  {WORDS['check'].example}\n")


def version_text() -> str:
    """The version, and where the desk's program is."""
    from silvervole.program import find_program
    try:
        return f"{NAME} {__version__}, with the desk {find_program()}\n"
    except Stop as stop:
        return f"{NAME} {__version__}, without a desk: {stop.line}\n"


def own_words(words: Sequence[str]) -> int:
    """What the command says where no word of its own comes first."""
    if list(words) == ["--version"]:
        write_out(version_text().encode("utf-8"))
    elif list(words) in (["--help"], ["-h"], []):
        write_out(help_text().encode("utf-8"))
        return End.WRITTEN if words else End.USAGE
    else:
        raise Stop(End.USAGE, f"{words[0]} is none of {', '.join(WORDS)}; usage: {USAGE}")
    return End.WRITTEN


def complete() -> None:
    """Answers the shell that asks what may come next, where argcomplete is installed."""
    try:
        import argcomplete
    except ImportError:
        sys.exit(1)
    whole = Parser(prog=NAME, usage=USAGE)
    whole.add_argument("--version", action="store_true")
    below = whole.add_subparsers()
    for name, word in WORDS.items():
        below.add_parser(name, parents=[word.load().parser()], add_help=False)
    argcomplete.autocomplete(whole)


def main(words: Sequence[str] | None = None) -> int:
    """The status of a run."""
    given = sys.argv[1:] if words is None else list(words)
    if COMPLETING in os.environ:
        complete()
    if given and given[0] in WORDS:
        word = WORDS[given[0]]
        return int(word.load().main(given[1:], program=f"{NAME} {given[0]}", example=word.example))
    return run_command(NAME, lambda: own_words(given))
