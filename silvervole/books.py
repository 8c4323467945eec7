"""The books of rules that the desk's program has."""
from __future__ import annotations

import argparse

THIRTY, FORTY = "thirty", "forty"
# The books by the number of their last rule: each begins with the one before.
BOOKS = {THIRTY: 30, FORTY: 40}


def add_book(parser: argparse.ArgumentParser, default: str | None = THIRTY, more: str = f" ({THIRTY})") -> None:
    """Adds the option that names a book."""
    parser.add_argument("--book", choices=tuple(BOOKS), default=default,
                        help=f"the book of rules: {THIRTY}, or {FORTY}, which has ten further rules{more}")
