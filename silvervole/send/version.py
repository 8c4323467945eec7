"""The next version of a page: its snapshot, from a file or from a browser, and its picture where one is wanted."""
from __future__ import annotations

import contextlib
import hashlib
import json
import re
from dataclasses import dataclass
from typing import Any

from silvervole import check_form
from silvervole.collect.ends import End, Stop, say
from silvervole.collect.options import Options
from silvervole.collect.pages import Collected, Holding, collect_page
from silvervole.view.files import read
from silvervole.view.outcomes import is_object
from silvervole.view.page import Page, read_page, snapshot_in


@dataclass(frozen=True)
class Picture:
    """A picture in PNG, and the boxes of nodes in it by their numbers in the snapshot."""

    image: bytes
    boxes: dict[int, list[int]]


@dataclass(frozen=True)
class Version:
    """A snapshot's object, and the page that it holds; and its picture."""

    top: dict[str, Any]
    page: Page
    picture: Picture | None = None

    def numbered(self, numbers: dict[int, int]) -> dict[str, Any]:
        """The snapshot with other numbers."""
        rows = [{**row, "n": numbers[row["n"]], "p": None if row["p"] is None else numbers[row["p"]]} for row in self.top["nodes"]]
        return {**self.top, "nodes": rows}


def written(snapshot: dict[str, Any]) -> bytes:
    """A snapshot as JSON."""
    return json.dumps(snapshot, ensure_ascii=False, separators=(",", ":")).encode("utf-8")


def version_of(source: str, options: Options, picture: str | None = None, holding: Holding = contextlib.nullcontext) -> Version:
    """The version that an address or a file holds: a page is collected, a snapshot is read. A browser is held while it is at work."""
    if not re.match(r"(?i)(https?|file):", source):
        data = read(source)
        if is_object(data):
            if options.shot is not None and picture is None:
                say("send", f"{source} is a snapshot, of which no picture can be taken; --picture names one")
            return read_version(data, source, picture)
    return collected_version(source, options, holding)


def read_version(data: bytes, path: str, picture: str | None = None) -> Version:
    """The version that a snapshot's bytes hold, with the picture that was made with it where its file is named."""
    page = read_page(data, path)
    top, _ = snapshot_in(check_form.read_top(data))
    if picture is None:
        return Version(top, page)
    return Version(top, page, Picture(read(picture), boxes_in(read(f"{picture}.json"), data, picture)))


def collected_version(source: str, options: Options, holding: Holding) -> Version:
    """The version that a browser shows."""
    taken: list[Collected] = []
    collect_page(source, options, taken.append, holding)
    for note in (note for collected in taken for note in collected.notes):
        say("send", f"{source}: {note}")
    data, shot = taken[0].text.encode("utf-8"), taken[0].shot
    version = read_version(data, source)
    return version if shot is None else Version(version.top, version.page, Picture(shot.picture, boxes_in(shot.boxes, data, source)))


def boxes_in(told: bytes, snapshot: bytes, path: str) -> dict[int, list[int]]:
    """The boxes that `collect --shot` wrote with a snapshot; a Stop where they are another's."""
    try:
        given = json.loads(told)
        boxes = {int(number): list(map(int, box)) for number, box in given["boxes"].items()}
        digest = given["snapshot"]
    except (ValueError, KeyError, TypeError, AttributeError):
        raise Stop(End.INPUT, f"{path}.json isn't as --shot writes it") from None
    if digest != hashlib.sha256(snapshot).hexdigest():
        raise Stop(End.INPUT, f"{path} is no picture of this page: it was made with another snapshot")
    return boxes
