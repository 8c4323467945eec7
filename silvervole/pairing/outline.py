"""Two pages as lists in document order, with numbers that are equal for what is equal in both."""
from __future__ import annotations

from typing import Hashable

from silvervole.view.page import Node, Page, tidy

from .identity import LONGEST_LABEL, NOTHING, digest, is_counted, kind_of, known_attributes, known_by, steady

# What stands in these isn't read by people.
UNREAD = frozenset(("script", "style", "template", "noscript"))
BLANK = 0


class Classes:
    """A number for each value that is seen: equal values have equal numbers."""

    def __init__(self) -> None:
        self.numbers: dict[Hashable, int] = {}

    def of(self, value: Hashable) -> int:
        """The number of a value, from 1."""
        return self.numbers.setdefault(value, len(self.numbers) + 1)


class Outline:
    """The nodes of a page in document order; each is spoken of by its place in that list, from 0.

    `parents` has -1 for the root, `ends` the place behind what stands below a node. `exact` is equal for subtrees that are
    equal in all, `content` for those that are equal in what people see and rules look at, `own` is that of an element alone.
    """

    def __init__(self, page: Page, classes: Classes) -> None:
        self.nodes: list[Node] = list(page.nodes.values())
        places = {id(node): place for place, node in enumerate(self.nodes)}
        self.parents = [places[id(node.parent)] if node.parent is not None else -1 for node in self.nodes]
        self.kids = [[places[id(kid)] for kid in node.kids] for node in self.nodes]
        self.kinds = [classes.of(kind_of(node)) for node in self.nodes]
        count = len(self.nodes)
        self.ends, self.exact, self.content, self.own = ([0] * count for _ in range(4))
        self.texts = [""] * count
        self.known = [NOTHING] * count
        for place in reversed(range(count)):
            self.measure(place, classes)
        self.labels = self.find_labels()

    def __len__(self) -> int:
        return len(self.nodes)

    def measure(self, place: int, classes: Classes) -> None:
        """Fills in what is said of a node, of which all below is known."""
        node, kids = self.nodes[place], self.kids[place]
        self.ends[place] = self.ends[kids[-1]] if kids else place + 1
        if not node.is_element:
            words = tidy(node.words)
            self.texts[place] = words
            self.exact[place] = classes.of(("text", node.words))
            self.content[place] = self.own[place] = classes.of(("words", words)) if words else BLANK
            return
        self.texts[place] = self.text_below(place)
        known = known_attributes(node)
        self.known[place] = known_by(known)
        looked_at = digest((name, steady(name, value)) for name, value in known.items())
        self.own[place] = classes.of((self.kinds[place], node.space, looked_at))
        self.content[place] = classes.of((self.own[place], *(self.content[kid] for kid in self.written(kids))))
        self.exact[place] = classes.of((node.tag, node.space, digest(node.attributes), tuple(self.exact[kid] for kid in kids)))

    def written(self, kids: list[int]) -> list[int]:
        """Those of some children that aren't blank texts."""
        return [kid for kid in kids if self.content[kid] != BLANK]

    def blank(self, kids: list[int]) -> list[int]:
        """Those of some children that are blank texts."""
        return [kid for kid in kids if self.content[kid] == BLANK]

    def text_below(self, place: int) -> str:
        """The text of an element, of which a long one is the front."""
        node = self.nodes[place]
        if node.folded in UNREAD:
            return ""
        parts = [node.attribute("alt")] if node.folded == "img" else []
        size = 0
        for kid in self.kids[place]:
            if self.texts[kid]:
                parts.append(self.texts[kid])
                size += len(parts[-1])
                if size > LONGEST_LABEL:
                    break
        return tidy(" ".join(parts))[:LONGEST_LABEL + 1]

    def find_labels(self) -> list[str]:
        """What people call each node: the first that it has of a label, a naming attribute and a short text."""
        written: dict[str, str] = {}
        for place, node in enumerate(self.nodes):
            if node.folded == "label" and self.known[place].labels:
                written.setdefault(self.known[place].labels, self.texts[place])
        return [self.label(place, written) for place in range(len(self))]

    def label(self, place: int, written: dict[str, str]) -> str:
        """The label of a node; none where it is long."""
        node, known = self.nodes[place], self.known[place]
        if not node.is_element or node.parent is None:
            return ""
        label = written.get(known.identity, "") or known.name or self.texts[place]
        return label if len(label) <= LONGEST_LABEL else ""

    def identity(self, place: int, counted: bool) -> Hashable:
        """The id of an element, of those that look counted or of the others; None where it has none."""
        found = self.known[place].identity
        return found if found and is_counted(found) == counted else None

    def test_id(self, place: int) -> Hashable:
        """The id that tests know an element by."""
        return self.known[place].test_id or None

    def called(self, place: int) -> Hashable:
        """The kind of an element and its label; None where it has no label."""
        return (self.kinds[place], self.labels[place]) if self.labels[place] else None

    def leads(self, place: int) -> Hashable:
        """The kind of an element and the address that it leads to or shows."""
        address = self.known[place].address
        return (self.kinds[place], address) if address else None
