"""Reads what a command is given."""
from __future__ import annotations

import sys

from silvervole.collect.ends import End, Stop


def read(path: str) -> bytes:
    """The bytes of a file, or of standard input."""
    try:
        if path == "-":
            if sys.stdin is None:
                raise Stop(End.INPUT, "standard input is closed")
            return sys.stdin.buffer.read()
        with open(path, "rb") as file:
            return file.read()
    except OSError as error:
        raise Stop(End.INPUT, f"{path} can't be read: {error.strerror}") from None
