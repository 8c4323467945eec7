"""The CSS path of a node: a selector that finds its element and no other."""
from __future__ import annotations

import functools
import re

from silvervole import check_form

from .page import Node, Page


def css_path(page: Page, node: Node) -> str:
    """The shortest chain of steps from an element with an id of its own, or from the root, down to the element.

    For an element of a shadow tree it is the path of the tree's host, `>>>`, and the path within the tree.
    A text has the path of the element that it stands in.
    """
    at: Node | None = node.element
    parts: list[str] = []
    while at is not None:
        parts.append(path_in_tree(page, at))
        at = at.host
    return " >>> ".join(reversed(parts))


def path_in_tree(page: Page, node: Node) -> str:
    """The path of an element within its own tree."""
    steps: list[str] = []
    at: Node | None = node
    while at is not None:
        identity = at.attribute("id")
        if identity and page.ids[at.tree, check_form.folded(identity)] == 1:
            steps.append(f"#{escaped(identity)}")
            break
        if at.number not in page.steps:
            page.steps[at.number] = step(at)
        steps.append(page.steps[at.number])
        if at.above is None and at.tree:
            steps.append(":host")
        at = at.above
    return " > ".join(reversed(steps))


def step(node: Node) -> str:
    """The selector of an element among the children of its parent."""
    # A selector's tag is folded against elements of HTML, and exact against all others.
    findable = node.space != "html" or node.tag == node.folded
    if node.at:
        tag = escaped(node.tag) if findable else "*"
        return " > ".join([*(f"slot:nth-child({place})" for place in node.at[:-1]), f"{tag}:nth-child({node.at[-1]})"])
    if node.parent is None:
        return escaped(node.tag) if findable else ":root"
    alike = node.parent.of_tag[node.folded]
    if findable and len(alike) == 1:
        return escaped(node.tag)
    if findable and len(node.parent.kinds_of_tag[node.folded]) == 1:
        return f"{escaped(node.tag)}:nth-of-type({node.parent.of_tag_places[node.number]})"
    return f"*:nth-child({node.parent.places[node.number]})"


@functools.lru_cache(maxsize=4096)
def escaped(name: str) -> str:
    """The name as an identifier of CSS, by the rules of CSS.escape."""
    def spelt(found: re.Match[str]) -> str:
        character = found.group()
        if character == "\0":
            return "\ufffd"
        if re.fullmatch(r"[\x01-\x1f\x7f0-9]", character):
            return f"\\{ord(character):x} "
        return f"\\{character}"

    if name == "-":
        return "\\-"
    return re.sub(r"\0|[\x01-\x1f\x7f]|(?<=^)[0-9]|(?<=^-)[0-9]|[^\x80-\U0010ffff\w-]", spelt, name)
