"""A page as a tree that can be changed, and the dozen next versions that bench/deploys makes of one.

Each node knows the number that it had; what is added, a copy among it, has none. A version gets fresh numbers from 1 on, in document
order, as a collection gives them.
"""
from __future__ import annotations

import copy
import hashlib
import re
from collections.abc import Callable, Iterator
from dataclasses import dataclass, field
from typing import Any

HEADING = re.compile(r"h[1-6]")
# A list has entries of one of these tags.
ENTRIES = ("li", "tr", "dt", "option")
SHOWN = {"ns": "html", "f": "rv"}


@dataclass(eq=False)
class Tree:
    """A node with what is below it, its row without numbers, and the number that it had."""

    row: dict[str, Any]
    was: int | None
    kids: list[Tree] = field(default_factory=list)

    @property
    def tag(self) -> str:
        """The tag; of a text none."""
        return str(self.row.get("tag", ""))

    def below(self) -> Iterator[Tree]:
        """The node and all below it, in document order."""
        yield self
        for kid in self.kids:
            yield from kid.below()

    def text(self) -> str:
        """All texts in it."""
        return "".join(node.row.get("text", "") for node in self.below())

    @property
    def elements(self) -> list[Tree]:
        """The children that are elements."""
        return [kid for kid in self.kids if kid.tag]


def tree_of(rows: list[dict[str, Any]]) -> Tree:
    """The tree of a snapshot's rows."""
    made: dict[int, Tree] = {}
    for row in rows:
        node = Tree(copy.deepcopy({name: value for name, value in row.items() if name not in ("n", "p")}), row["n"])
        made[row["n"]] = node
        if row["p"] is not None:
            made[row["p"]].kids.append(node)
    return made[rows[0]["n"]]


def rows_of(tree: Tree) -> tuple[list[dict[str, Any]], dict[int, int]]:
    """The rows with fresh numbers, and for each number that a node had its number now."""
    rows: list[dict[str, Any]] = []
    now: dict[int, int] = {}

    def add(node: Tree, parent: int | None) -> None:
        number = len(rows) + 1
        rows.append({"n": number, "p": parent, **node.row})
        if node.was is not None:
            now[node.was] = number
        for kid in node.kids:
            add(kid, number)

    add(tree, None)
    return rows, now


def element(tag: str, *kids: Tree, **attributes: str) -> Tree:
    """A new element."""
    return Tree({"tag": tag, "attrs": [list(pair) for pair in attributes.items()], **SHOWN}, None, list(kids))


def text(words: str) -> Tree:
    """A new text."""
    return Tree({"text": words, "f": "rv"}, None)


def body_of(page: Tree) -> Tree:
    """The page's body."""
    return next(kid for kid in page.kids if kid.tag == "body")


def headings(page: Tree) -> list[Tree]:
    """The page's headings."""
    return [node for node in body_of(page).below() if HEADING.fullmatch(node.tag)]


def sections(page: Tree) -> tuple[Tree, list[list[Tree]]]:
    """The element that holds most sections, and its sections: what stands from a heading, or an element with one, up to the next."""
    def parts(node: Tree) -> list[list[Tree]]:
        found: list[list[Tree]] = []
        for kid in node.kids:
            if kid.tag and any(HEADING.fullmatch(one.tag) for one in kid.below()):
                found.append([kid])
            elif found:
                found[-1].append(kid)
        return found

    holder = max(body_of(page).below(), key=lambda node: len(parts(node)))
    return holder, parts(holder)


def lists(page: Tree) -> list[Tree]:
    """The three longest lists."""
    found = [node for node in body_of(page).below() if sum(kid.tag in ENTRIES for kid in node.kids) > 1]
    return sorted(found, key=lambda node: len(node.kids), reverse=True)[:3]


def banner(page: Tree) -> None:
    """A banner comes before all else."""
    body_of(page).kids.insert(0, element("div", element("p", text("We are closed on Monday. ")), element("a", text("Why"), href="/closed")))


def moved(page: Tree) -> None:
    """The second section goes to the end."""
    holder, parts = sections(page)
    for part in parts[1:2]:
        holder.kids = [kid for kid in holder.kids if kid not in part] + part


def removed(page: Tree) -> None:
    """The second section is gone."""
    holder, parts = sections(page)
    for part in parts[1:2]:
        holder.kids = [kid for kid in holder.kids if kid not in part]


def sorted_lists(page: Tree) -> None:
    """The longest lists, and the sections, are sorted by their texts, from Z to A."""
    for node in lists(page):
        ordered = iter(sorted(node.elements, key=Tree.text, reverse=True))
        node.kids = [next(ordered) if kid.tag else kid for kid in node.kids]
    holder, parts = sections(page)
    first = len(holder.kids) - sum(map(len, parts))
    parts.sort(key=lambda part: "".join(map(Tree.text, part)), reverse=True)
    holder.kids = holder.kids[:first] + [kid for part in parts for kid in part]


def entries(page: Tree) -> None:
    """Five entries come into the middle of each of the longest lists, and a section into the middle of the sections."""
    for node in lists(page):
        tag = node.elements[0].tag
        middle = len(node.kids) // 2
        node.kids[middle:middle] = [element(tag, element("a", text(f"Entry {number}"), href=f"/entry/{number}")) for number in range(5)]
    holder, parts = sections(page)
    place = holder.kids.index(parts[len(parts) // 2][0]) if parts else 0
    holder.kids[place:place] = [element("h2", text("What is new")), element("p", text("Five entries."))]


def wrapped(page: Tree) -> None:
    """All that is in the body, and each heading by itself, gets a wrapper around."""
    body = body_of(page)
    heads = set(headings(page))
    for node in list(body.below()):
        node.kids = [element("div", kid, **{"class": "wrapper"}) if kid in heads else kid for kid in node.kids]
    body.kids = [element("div", element("div", *body.kids))]


def with_made_ids(page: Tree) -> None:
    """Elements without an id get one as a build makes it; that is how the page is before `anew`."""
    make_ids(page, "a")


def anew(page: Tree) -> None:
    """All classes and all ids that a build made are others."""
    make_ids(page, "b")
    for node in page.below():
        for pair in node.row.get("attrs", []):
            if pair[0] == "class":
                pair[1] = " ".join(f"c{digest('b', word)}" for word in pair[1].split())


def make_ids(page: Tree, salt: str) -> None:
    """Gives each third element without an id one that is made: of long hexadecimal numbers, and of those that count."""
    start = 1 if salt == "a" else 4
    for place, node in enumerate(body_of(page).below()):
        attributes = node.row.get("attrs", [])
        if node.tag and place % 3 == 0 and (all(name != "id" for name, _ in attributes) or node.row.get("made")):
            attributes[:] = [pair for pair in attributes if pair[0] != "id"]
            attributes.append(["id", f":r{place // 3 + start}:" if place % 2 else digest(salt, str(place))])
            node.row["made"] = True


def digest(salt: str, word: str) -> str:
    """Ten hexadecimal digits."""
    return hashlib.sha256(f"{salt}{word}".encode()).hexdigest()[:10]


def mended(page: Tree) -> None:
    """A word more stands in each twentieth text, and in each tenth heading."""
    words = [node for node in body_of(page).below() if node.row.get("text", "").strip()]
    chosen = words[::20] + [next(node for node in head.below() if not node.tag) for head in headings(page)[::10] if head.text().strip()]
    for node in chosen:
        node.row["text"] += " anew"


def replaced(page: Tree) -> None:
    """Each image shows another file, and each second one has another text."""
    images = [node for node in page.below() if node.tag == "img"]
    for place, node in enumerate(images):
        values = dict(node.row["attrs"])
        values["src"] = f"/images/{place}.webp"
        if place % 2:
            values["alt"] = f"Picture {place}"
        node.row["attrs"] = [list(pair) for pair in values.items()]


def doubled(page: Tree) -> None:
    """A copy of the second section, and of the first entry of each of the longest lists, stands before it."""
    for node in lists(page):
        first = node.elements[0]
        node.kids.insert(node.kids.index(first), copied(first))
    holder, parts = sections(page)
    for part in parts[1:2]:
        place = holder.kids.index(part[0])
        holder.kids[place:place] = [copied(kid) for kid in part]


def copied(node: Tree) -> Tree:
    """A copy without ids, all of it new."""
    made = copy.deepcopy(node)
    for one in made.below():
        one.was = None
        if "attrs" in one.row:
            one.row["attrs"] = [pair for pair in one.row["attrs"] if pair[0] != "id"]
    return made


def levels(page: Tree) -> None:
    """Each heading but the first is a level lower."""
    for head in headings(page)[1:]:
        head.row["tag"] = f"h{min(6, int(head.tag[1]) + 1)}"


def together(page: Tree) -> None:
    """Much of it at once."""
    for change in (moved, entries, mended, replaced, anew, wrapped, banner):
        change(page)


def as_it_was(page: Tree) -> None:
    """Nothing is changed."""


# What a version is called, what it changes, and what was changed in the page that is judged.
VERSIONS: tuple[tuple[str, Callable[[Tree], None], Callable[[Tree], None]], ...] = (
    ("a banner before", banner, as_it_was),
    ("a section moved to the end", moved, as_it_was),
    ("lists and sections sorted", sorted_lists, as_it_was),
    ("entries and a section in the middle", entries, as_it_was),
    ("wrappers around all and around each heading", wrapped, as_it_was),
    ("all classes and made ids anew", anew, with_made_ids),
    ("texts mended", mended, as_it_was),
    ("images replaced", replaced, as_it_was),
    ("a section's and entries' copies before them", doubled, as_it_was),
    ("a section removed", removed, as_it_was),
    ("headings a level lower", levels, as_it_was),
    ("much of it at once", together, with_made_ids),
)
