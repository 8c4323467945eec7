"""Addresses: what is to be opened, and the name of a page's file."""
from __future__ import annotations

import os
import pathlib
import re
import urllib.parse
from typing import NamedTuple

from .ends import End, Stop

# Many file systems take names of at most 255 bytes.
LONGEST_NAME = 200


class Place(NamedTuple):
    """An address that the browser opens, and whether it is a file's."""

    address: str
    is_file: bool


def place_of(page: str) -> Place:
    """The place of an address of http, https or file, or of a file's path."""
    scheme = re.match(r"([A-Za-z][A-Za-z0-9+.-]*):", page)
    kind = scheme.group(1).lower() if scheme else ""
    if kind in ("http", "https"):
        return Place(page, False)
    if kind == "file":
        import urllib.request  # only here, since it loads slowly
        path = urllib.request.url2pathname(re.sub(r"[?#].*", "", page[len("file:"):]).removeprefix("//"))
    elif kind and not os.path.exists(page):
        raise Stop(End.USAGE, f"{page}: only an address of http, https or file, or a file's path, can be collected")
    else:
        path = page
    path = os.path.abspath(path)
    if not os.path.isfile(path):
        raise Stop(End.LOAD, f"the page doesn't load: {path} is no file")
    if not os.access(path, os.R_OK):
        raise Stop(End.LOAD, f"the page doesn't load: {path} can't be read")
    return Place(page if kind == "file" else pathlib.Path(path).as_uri(), True)


def check_written(address: str) -> str:
    """The address given as the page's, which the desk takes of http and https alone."""
    if not re.match(r"\s*https?:", address, re.IGNORECASE):
        raise Stop(End.USAGE, f"--url {address}: the desk takes addresses of http and https alone")
    return address


def name_of(address: str) -> str:
    """A file name, without an ending, that is told from the address alone.

    The scheme https goes, http stays as `http+`; each slash becomes `_`, a port's
    colon `+`, and every other character that isn't plain is percent-encoded. A name
    that would be too long ends in a digest of the address.
    """
    parted = re.fullmatch(r"(?i)(https?):/*([^/?#]*)(.*)", address.strip())
    if parted is None:
        return bounded(spelt(address), address)
    scheme, host, rest = parted.groups()
    rest = "" if rest == "/" else rest
    front = "http+" if scheme.lower() == "http" else ""
    return bounded(front + spelt(host.lower()).replace("%3A", "+") + spelt(rest), address)


def spelt(text: str) -> str:
    """The text with its slashes as `_`, and all that isn't plain in a file's name percent-encoded."""
    parts = (urllib.parse.quote(part, safe="=,").replace("_", "%5F").replace("~", "%7E") for part in text.split("/"))
    return "_".join(parts)


def ended(path: str, ending: str) -> str:
    """The path with an ending of its own before that of its kind, as page.frame-2.json of page.json."""
    if not ending:
        return path
    front, kind = os.path.splitext(path)
    return f"{front}.{ending}{kind}"


def bounded(name: str, address: str) -> str:
    """The name, or where it is too long its front and a digest of the address."""
    if len(name) <= LONGEST_NAME:
        return name
    import hashlib  # only here, since it loads slowly
    return f"{name[:LONGEST_NAME - 17]}-{hashlib.sha256(address.encode('utf-8', 'replace')).hexdigest()[:16]}"
