"""What is checked: pages of servers, pages in files, and snapshots."""
from __future__ import annotations

import functools
import os
import pathlib
import urllib.parse
from dataclasses import dataclass
from typing import Iterable

from silvervole.collect.ends import End, Stop
from silvervole.collect.places import name_of, place_of
from silvervole.view.files import read
from silvervole.view.outcomes import is_object

# A file has no address, and the desk takes none but those of http and https. No server has this name.
OF_FILES = "https://file.invalid/"


@dataclass(frozen=True)
class Subject:
    """A page that is to be checked: what is opened, the address to write as its own, and the file of its states' steps."""

    page: str
    url: str | None = None
    states: str | None = None

    @property
    def file(self) -> str:
        """The path of the page's own file; empty where a server has it."""
        return "" if self.page.lower().startswith(("http:", "https:", "file:")) else self.page

    @property
    def server(self) -> str:
        """The scheme, the host and the port of the page's server; empty of a file."""
        parts = urllib.parse.urlsplit(self.page.strip())
        return f"{parts.scheme}://{parts.netloc}".lower() if parts.scheme.lower() in ("http", "https") else ""

    @property
    def address(self) -> str | None:
        """The address to write as the page's; None where it keeps its own."""
        return self.url or (address_of(self.page) if place_of(self.page).is_file else None)

    @property
    def name(self) -> str:
        """The name of its files in a folder, without an ending."""
        return name_of(self.url or self.page)

    @functools.cached_property
    def is_snapshot(self) -> bool:
        """Whether the page's file is a snapshot rather than a page to open."""
        return bool(self.file) and os.path.isfile(self.file) and is_object(read(self.file))


def address_of(path: str) -> str:
    """An address for a file, told from its path, and below the folder of work from its path there."""
    below = os.path.relpath(path)
    shown = os.path.abspath(path) if below.startswith(os.pardir) else below
    return OF_FILES + urllib.parse.quote(pathlib.Path(shown).as_posix().lstrip("/"))


def file_of(address: str) -> str:
    """The path of the file that an address was made of, where it is still there; else the empty text."""
    path = urllib.parse.unquote(address.removeprefix(OF_FILES)) if address.startswith(OF_FILES) else ""
    return next((shown for shown in (path, f"/{path}") if path and os.path.isfile(shown)), "")


def check_names(subjects: Iterable[Subject]) -> None:
    """A Stop where two pages would be kept in files of one name."""
    first: dict[str, str] = {}
    for subject in subjects:
        if subject.name in first:
            raise Stop(End.USAGE, f"{first[subject.name]} and {subject.page} would be kept in one file, {subject.name}.json")
        first[subject.name] = subject.page
