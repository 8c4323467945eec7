"""A page as its snapshot has it, and what is said of a node to a person who looks for it."""
from __future__ import annotations

import itertools
import re
from collections import Counter
from dataclasses import dataclass, field
from functools import cached_property
from typing import Any, Iterator, Mapping, NamedTuple

from silvervole import check_form
from silvervole.collect.ends import End, Stop

from .languages import known_language
from .owning import owners_of

HEADING = re.compile(r"h[1-6]")
# What the collector adds to ids in shadow trees, the attributes in which, and the ids that it makes.
MARK = re.compile(r"@shadow-[1-9][0-9]*(?=[\t\n\f\r ]|$)")
NAMES_IDS = re.compile(r"aria-.*|commandfor|for|form|headers|href|id|interestfor|itemref|list|popovertarget|xlink:href")
MADE = re.compile(r"@made-[1-9][0-9]*")
VOID = {"area", "base", "br", "col", "embed", "hr", "img", "input", "link", "meta", "source", "track", "wbr"}
LONGEST_TEXT, LONGEST_VALUE, MOST_ATTRIBUTES = 240, 100, 20
ENOUGH_TEXT = 4 * LONGEST_TEXT


@dataclass(eq=False)
class Node:
    """An element or a text: what its row says, and its place in the tree."""

    number: int
    parent: Node | None
    tag: str
    space: str
    # The attributes' names and values by turns, which need less memory than pairs.
    parts: tuple[str, ...]
    words: str
    letters: str
    # The number of the shadow tree that it stands in, 0 for the document itself; and where the
    # rows around don't show its place in the DOM, that place, after those of slots without a row.
    tree: int = 0
    at: tuple[int, ...] = ()
    kids: list[Node] = field(default_factory=list)

    @property
    def is_element(self) -> bool:
        return self.tag != ""

    @property
    def folded(self) -> str:
        """The tag with ASCII letters in lower case."""
        return check_form.folded(self.tag)

    @property
    def attributes(self) -> list[tuple[str, str]]:
        """The names and values, in the order of the page."""
        return list(zip(self.parts[::2], self.parts[1::2]))

    def attribute(self, name: str) -> str:
        """The value of an attribute; the empty text where there is none."""
        # Most nodes have none.
        names = [*map(check_form.folded, self.parts[::2])] if self.parts else ()
        return self.parts[2 * names.index(name) + 1] if name in names else ""

    @cached_property
    def above(self) -> Node | None:
        """The nearest element around it in its own tree; None at the top of a tree."""
        up = self.parent
        while up is not None and up.tree != self.tree:
            up = up.parent
        return up

    @cached_property
    def host(self) -> Node | None:
        """The host of the shadow tree that it stands in; None in the document itself."""
        top = self
        while top.above is not None:
            top = top.above
        return top.parent

    @property
    def element(self) -> Node:
        """The element itself, or the one that a text stands in."""
        return self if self.is_element else self.above or self.host or self

    @cached_property
    def elements(self) -> list[Node]:
        """The children that are elements."""
        return [kid for kid in self.kids if kid.is_element]

    @cached_property
    def places(self) -> dict[int, int]:
        """The place of each child element among all of them, from 1."""
        return {kid.number: place for place, kid in enumerate(self.elements, 1)}

    @cached_property
    def of_tag(self) -> dict[str, list[int]]:
        """The numbers of the child elements of each tag."""
        found: dict[str, list[int]] = {}
        for kid in self.elements:
            found.setdefault(kid.folded, []).append(kid.number)
        return found

    @cached_property
    def kinds_of_tag(self) -> dict[str, set[tuple[str, str]]]:
        """The name spaces and the spellings of each tag among the child elements."""
        found: dict[str, set[tuple[str, str]]] = {}
        for kid in self.elements:
            found.setdefault(kid.folded, set()).add((kid.space, kid.tag))
        return found

    @cached_property
    def of_tag_places(self) -> dict[int, int]:
        """The place of each child element among those of its tag, from 1."""
        return {number: place for numbers in self.of_tag.values() for place, number in enumerate(numbers, 1)}


class Quote(NamedTuple):
    """A text of the page, and the tag of its language where that is known."""

    text: str
    language: str


@dataclass(frozen=True)
class Page:
    """An address and nodes by their numbers, in document order; the revision where the desk sent the page, and whether it stands in a frame.

    `owners` has for each element that others own by aria-owns their numbers.
    """

    address: str
    nodes: dict[int, Node]
    state: str = ""
    revision: int | None = None
    in_frame: bool = False
    owners: Mapping[int, tuple[int, ...]] = field(default_factory=dict)

    @cached_property
    def root(self) -> Node:
        return next(iter(self.nodes.values()))

    @cached_property
    def ids(self) -> Counter[tuple[int, str]]:
        """How many elements of a tree have an id; letter case is left aside, as selectors do in old pages."""
        return Counter((node.tree, check_form.folded(node.attribute("id"))) for node in self.nodes.values() if node.attribute("id"))

    @cached_property
    def headings_above(self) -> dict[int, Node]:
        """The last heading with a text that comes before each node."""
        found: dict[int, Node] = {}
        last = None
        for node in self.nodes.values():
            if last is not None:
                found[node.number] = last
            if is_heading(node) and text_of(node):
                last = node
        return found

    @cached_property
    def steps(self) -> dict[int, str]:
        """The selectors of elements among the children of their parents, as far as they were asked for."""
        return {}

    @cached_property
    def title(self) -> Quote:
        """The text of the first title element."""
        titles = (node for node in self.nodes.values() if node.folded == "title" and node.space == "html")
        first = next(titles, None)
        return Quote(tidy("".join(kid.words for kid in first.kids)), self.languages[first.number]) if first else Quote("", "")

    @cached_property
    def languages(self) -> dict[int, str]:
        """The language of each node: its own, or that of the nearest element above it that has one."""
        found: dict[int, str] = {}
        for node in self.nodes.values():
            own = node.attribute("lang").strip()
            above = found[node.parent.number] if node.parent else ""
            found[node.number] = known_language(own) if own else above
        return found

    def quote(self, node: Node) -> Quote:
        """What a node holds for its readers, its front where it is long."""
        return Quote(shortened(text_of(node), LONGEST_TEXT), self.languages[node.number])


def read_page(data: bytes, path: str) -> Page:
    """The page that the bytes of a snapshot hold, or of the desk's reply to the page, or a Stop."""
    try:
        top, revision = snapshot_in(check_form.read_top(data))
        address, rows = check_form.read(top)
        check_form.check_tree(rows)
    except check_form.Fault as fault:
        raise Stop(End.INPUT, f"{path} is no snapshot: {fault}") from None
    state, in_frame = top.get("state"), check_form.is_number(top.get("frame"))
    owners = owners_of(rows)
    # Each row is let go once its node is made, so that a page takes no more memory than it has to.
    del top
    rows.reverse()
    nodes: dict[int, Node] = {}
    while rows:
        row = rows.pop()
        parent = nodes.get(row["p"])
        node = Node(row["n"], parent, row["tag"] or "", row["ns"], unmarked(row["attrs"]),
                    row["text"] or "", row["f"], tree_of(row["given"]), places_of(row["given"]))
        nodes[node.number] = node
        if parent is not None:
            parent.kids.append(node)
    return Page(address, nodes, state if isinstance(state, str) else "", revision, in_frame, owners)


def snapshot_in(top: dict[str, Any]) -> tuple[dict[str, Any], int | None]:
    """The snapshot that an object is; or that it holds as the desk's reply to a page, and the page's revision."""
    if not isinstance(top.get("snapshot"), dict):
        return top, None
    revision = top.get("rev")
    return top["snapshot"], revision if type(revision) is int else None


def tree_of(given: dict[str, object]) -> int:
    """The number of the shadow tree that the collector wrote of a row."""
    tree = given.get("in", 0)
    return tree if isinstance(tree, int) and check_form.is_number(tree) else 0


def places_of(given: dict[str, object]) -> tuple[int, ...]:
    """The places that the collector wrote of a row."""
    at = given.get("at", [])
    return tuple(at) if isinstance(at, list) and all(map(check_form.is_number, at)) else ()


def unmarked(attributes: list[list[str]]) -> tuple[str, ...]:
    """The names and values as the page has them: ids without the mark of their tree, and none that the collector made."""
    if not any("@" in value for _, value in attributes):
        return tuple(itertools.chain.from_iterable(attributes))
    kept = ((name, check_form.folded(name), value) for name, value in attributes)
    pairs = ((name, MARK.sub("", value) if NAMES_IDS.fullmatch(folded) else value)
             for name, folded, value in kept if not (folded == "id" and MADE.fullmatch(value)))
    return tuple(itertools.chain.from_iterable(pairs))


def tidy(text: str) -> str:
    """The text's words with one space between them."""
    return " ".join(part for part in check_form.WHITE.split(text) if part)


def shortened(text: str, most: int) -> str:
    """The text, or its front and an ellipsis."""
    return text if len(text) <= most else f"{text[:most - 1].rstrip()}\u2026"


def is_heading(node: Node) -> bool:
    """Whether a person who looks at the page sees a heading there."""
    if not node.is_element or "v" not in node.letters:
        return False
    role = node.attribute("role").strip().lower()
    return role == "heading" or (role == "" and node.space == "html" and HEADING.fullmatch(node.folded) is not None)


def text_of(node: Node) -> str:
    """The texts in a node that are drawn, and the alternative texts of its pictures; all its texts where it isn't drawn.

    Of a long text it is the front.
    """
    parts, size = [], 0
    for piece in pieces(node, "v" not in node.letters):
        parts.append(piece)
        size += len(piece.strip())
        if size > ENOUGH_TEXT:
            break
    return tidy("".join(parts))


def pieces(node: Node, whole: bool) -> Iterator[str]:
    """The texts of a node one after another, those that aren't drawn only where the whole is wanted."""
    if not node.is_element:
        if whole or "v" in node.letters:
            yield node.words
    elif node.folded == "img":
        yield f" {node.attribute('alt')} "
    for kid in node.kids:
        yield from pieces(kid, whole)


def start_tag(node: Node) -> str:
    """The element's start tag as HTML would write it, long values shortened."""
    written = [node.tag]
    for name, value in node.attributes[:MOST_ATTRIBUTES]:
        spelt = shortened(value, LONGEST_VALUE).replace("&", "&amp;").replace('"', "&quot;")
        written.append(f'{name}="{spelt}"' if value else name)
    if len(node.attributes) > MOST_ATTRIBUTES:
        written.append("\u2026")
    closed = "/" if node.space != "html" and not node.kids else ""
    return f"<{' '.join(written)}{closed}>"
