"""Where a finding is, said for people."""
from __future__ import annotations

from dataclasses import dataclass
from functools import cached_property

from silvervole.view.page import Node, Page, text_of, tidy
from silvervole.view.paths import css_path

# A longer text is what an element holds, not what people call it.
LONGEST_LABEL = 80
NAMING = ("aria-label", "alt", "title", "placeholder", "name")


@dataclass(frozen=True)
class Place:
    """A node of a page. Without the page's snapshot only its number is known."""

    number: int
    kind: str = ""
    label: str = ""
    path: str = ""

    def __str__(self) -> str:
        if not self.path:
            return f"node {self.number}"
        named = f' "{self.label}"' if self.label else ""
        return f"{self.kind}{named} at {self.path} (node {self.number})"


class Places:
    """The places of one page."""

    def __init__(self, page: Page) -> None:
        self.page = page

    @cached_property
    def labels(self) -> dict[str, str]:
        """The text of the first label for each id."""
        found: dict[str, str] = {}
        for node in self.page.nodes.values():
            if node.folded == "label" and node.attribute("for"):
                found.setdefault(node.attribute("for"), text_of(node))
        return found

    def place(self, number: int) -> Place:
        """The place of the node with this number; of a text it is that of its element."""
        node = self.page.nodes[number]
        element = node if node.is_element or node.parent is None else node.parent
        return Place(number, element.folded, self.label(element), css_path(self.page, element))

    def label(self, element: Node) -> str:
        """What people call the element: the first that it has of a label, a naming attribute and a short text."""
        if element is self.page.root:
            return ""
        named = (tidy(element.attribute(name)) for name in NAMING)
        candidates = (self.labels.get(element.attribute("id"), ""), *named, text_of(element))
        label = next(filter(None, candidates), "")
        return label if len(label) <= LONGEST_LABEL else ""
