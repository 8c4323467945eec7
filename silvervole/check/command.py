"""The word check."""
from __future__ import annotations

from typing import Sequence

from silvervole.collect.ends import Stop, run_command
from silvervole.program import Audit
from silvervole.view.files import read
from silvervole.words import Parser

from .options import Checking, parser, read_words

__all__ = ["main", "parser"]


def begun_audit(checking: Checking) -> Audit | None:
    """The audit of the first page, where that is a snapshot; None too where it can't begin, which is told in the page's turn."""
    first = checking.subjects[0]
    try:
        return Audit(read(first.file), checking.book) if first.is_snapshot else None
    except Stop:
        return None


def work(words: Sequence[str], program: str, asked: Parser) -> int:
    """The status of what the words ask for."""
    checking = read_words(words, asked)
    begun = begun_audit(checking)
    try:
        from .pages import check  # only here, so that it loads while the desk audits
        return check(checking, program, begun)
    finally:
        if begun is not None:
            begun.end()


def main(words: Sequence[str], program: str = "check", example: str = "") -> int:
    """The status of a run."""
    return run_command(program, lambda: work(words, program, parser(program, example)))
