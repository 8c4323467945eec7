"""The words by which commands are told of a desk."""
from __future__ import annotations

import argparse
import urllib.parse

from silvervole.collect.ends import End, Stop

from .asking import NAME, Access, Desk, desk_address
from .signing_in import NAME as VARIABLE, PASSWORD, sign_in


def add_desk_words(parser: argparse.ArgumentParser) -> None:
    """Adds the words to a command's."""
    parser.add_argument("--desk", metavar="ADDRESS", help="the desk's address, or its proxy's (the variable SILVERVOLE_DESK)")
    parser.add_argument("--caller", metavar="NAME", help="who asks, of a desk without a proxy")
    parser.add_argument("--key", metavar="FILE",
                        help=f"a file with NAME:PASSWORD for the proxy (the variables {VARIABLE} and {PASSWORD}, or .netrc)")
    parser.add_argument("--ca", metavar="FILE", help="a file in PEM of the authorities that vouch for the desk's certificate")


def desk_of(given: argparse.Namespace) -> Desk:
    """The desk that the words name."""
    address = desk_address(given.desk)
    if given.caller is not None and not NAME.fullmatch(given.caller):
        raise Stop(End.USAGE, f"--caller {given.caller}: a name is 1 to 64 characters out of a to z, 0 to 9, . _ and -")
    host = urllib.parse.urlsplit(address).hostname or ""
    signed = sign_in(host, given.key) if given.caller is None or given.key is not None else None
    return Desk(Access(address, given.caller, signed, given.ca))
