"""The lines of a page's own file on which its elements begin, and the files and lines that the formats name."""
from __future__ import annotations

import os
import pathlib
import re
from collections import defaultdict
from html.parser import HTMLParser

from silvervole import check_form
from silvervole.collect.ends import one_line
from silvervole.view.page import Node, Page

ROW = re.compile(r'\{"n":([0-9]+),')
Tag = tuple[str, tuple[tuple[str, str], ...]]


class StartTags(HTMLParser):
    """The lines of each kind of start tag in a file, in their order."""

    def __init__(self) -> None:
        super().__init__(convert_charrefs=True)
        self.lines: defaultdict[Tag, list[int]] = defaultdict(list)

    def handle_starttag(self, tag: str, attrs: list[tuple[str, str | None]]) -> None:
        """Takes note of a start tag."""
        first = {name: value or "" for name, value in reversed(attrs)}
        self.lines[tag_of(tag, first)].append(self.getpos()[0])


def tag_of(tag: str, attributes: dict[str, str]) -> Tag:
    """A start tag, so that one in a file equals one in a snapshot."""
    return check_form.folded(tag), tuple(sorted((check_form.folded(name), value) for name, value in attributes.items()))


def lines_of(text: str, page: Page) -> dict[int, int]:
    """The line of each element that can be told for sure: its start tag is as often in the file as on the page."""
    parser = StartTags()
    parser.feed(text)
    parser.close()
    elements: defaultdict[Tag, list[Node]] = defaultdict(list)
    for node in page.nodes.values():
        if node.is_element:
            elements[tag_of(node.tag, dict(reversed(node.attributes)))].append(node)
    return {node.number: line for tag, nodes in elements.items() if len(nodes) == len(parser.lines[tag])
            for node, line in zip(nodes, parser.lines[tag])}


def rows_of(text: str) -> dict[int, int]:
    """The line of each node's row in a snapshot; none where it isn't written as the collector writes it."""
    found = ((ROW.match(line), place) for place, line in enumerate(text.split("\n"), 1))
    return {int(row[1]): place for row, place in found if row}


class Lines:
    """Where the findings of a page are, as files and lines: in its own file, else in its snapshot's, else by its address."""

    def __init__(self, page: Page | None, address: str, file: str, snapshot: str) -> None:
        self.nodes = page.nodes if page is not None else {}
        self.path = from_here(file or snapshot) or path_of(address)
        self.lines: dict[int, int] = {}
        if page is not None and file:
            self.lines = lines_of(read_text(file), page)
        elif snapshot:
            self.lines = rows_of(read_text(snapshot))

    def line(self, number: int) -> int:
        """The line on which the node begins, or else the nearest element above it whose line can be told; 1 where none can."""
        at = self.nodes.get(number)
        while at is not None and at.number not in self.lines:
            at = at.parent
        return self.lines[at.number] if at is not None else 1


def read_text(path: str) -> str:
    """The text of a page's file; empty where it can't be read."""
    try:
        return pathlib.Path(path).read_bytes().decode("utf-8", "replace")
    except OSError:
        return ""


def from_here(path: str) -> str:
    """The path from the folder of work, with slashes, where it lies below it; else as it is."""
    if not path:
        return ""
    below = os.path.relpath(path)
    return pathlib.Path(path if below.startswith(os.pardir) else below).as_posix()


def path_of(address: str) -> str:
    """An address as a path, for services that show findings by files alone."""
    return one_line(re.sub(r"/{2,}", "/", re.sub(r"^[a-z]+://|#.*", "", address)).strip("/")) or "page"
