"""How the words of a command are read."""
from __future__ import annotations

import argparse
from typing import IO, NoReturn

from silvervole.collect.ends import End, Stop, write_out


class Parser(argparse.ArgumentParser):
    """A parser whose refusal is a Stop of one line, and whose help ends in an example where there is one."""

    def __init__(self, *, example: str = "", **given: object) -> None:
        super().__init__(allow_abbrev=False, **given)  # type: ignore[arg-type]
        self.example = example

    def error(self, message: str) -> NoReturn:
        raise Stop(End.USAGE, f"{message}; usage: {self.format_usage().removeprefix('usage: ').strip()}")

    def format_help(self) -> str:
        """The help's text."""
        return super().format_help() + (f"\nexample:\n  {self.example}\n" if self.example else "")

    def print_help(self, file: IO[str] | None = None) -> None:
        """Writes the help on standard output, or is a Stop where that can't be written."""
        write_out(self.format_help().encode("utf-8"))
