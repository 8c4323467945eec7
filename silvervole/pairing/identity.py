"""What people and programs know an element by, and which of it is made anew by each build."""
from __future__ import annotations

import functools
import re
from typing import Iterable, NamedTuple

from silvervole import check_form
from silvervole.view.page import Node, tidy

# A longer text is what an element holds, not what people call it.
LONGEST_LABEL = 80
NAMING = ("aria-label", "alt", "title", "placeholder", "name", "value")
TEST_IDS = ("data-testid", "data-test-id", "data-test", "data-cy", "data-qa")
ADDRESSES = frozenset(("href", "src", "action", "srcset", "data"))
REFERENCES = frozenset(("id", "for", "headers", "list", "form", "aria-activedescendant", "aria-controls", "aria-describedby", "aria-details",
                        "aria-errormessage", "aria-flowto", "aria-labelledby", "aria-owns"))
# What rules look at and people see. All else, as classes and styles, may change with every build.
KNOWN = frozenset((*NAMING, *TEST_IDS, *ADDRESSES, *REFERENCES, "role", "type", "lang", "label", "content", "http-equiv"))
# Ids that React counts, and what is drawn by lot: universally unique ids, and eight hexadecimal digits or more, one of them below ten.
COUNTS = r":[rR][0-9A-Za-z]*:|\u00ab[rR][0-9a-z]*\u00bb|_[rR]_[0-9a-z]+_"
LOTS = (r"(?<![0-9A-Za-z])(?:[0-9a-fA-F]{8}(?:-[0-9a-fA-F]{4}){3}-[0-9a-fA-F]{12}"
        r"|(?=[a-fA-F]*[0-9])[0-9a-fA-F]{8,})(?![0-9A-Za-z])")
COUNT, LOT, MADE = re.compile(COUNTS), re.compile(LOTS), re.compile(f"{COUNTS}|{LOTS}")
DIGITS = re.compile(r"[0-9]+")
HEADING = re.compile(r"h[1-6]")


class Known(NamedTuple):
    """What an element is known by beside its text; each is empty where it has none."""

    identity: str = ""
    test_id: tuple[str, ...] = ()
    address: str = ""
    name: str = ""
    labels: str = ""


NOTHING = Known()


def kind_of(node: Node) -> str:
    """The tag; the headings of all levels are of one kind, and texts of another."""
    if not node.is_element:
        return "#text"
    return "h" if HEADING.fullmatch(node.folded) else node.folded


def steady(name: str, value: str) -> str:
    """The value of an attribute without what a build makes anew: parts of ids and of files' names."""
    if name in REFERENCES:
        return DIGITS.sub("0", MADE.sub("*", value))
    return MADE.sub("*", value) if name in ADDRESSES else value


@functools.lru_cache(maxsize=4096)
def known_name(name: str) -> str:
    """The name of an attribute that an element is known by, folded; of others the empty text."""
    folded = check_form.folded(name)
    return folded if folded in KNOWN or folded.startswith("aria-") else ""


def known_attributes(node: Node) -> dict[str, str]:
    """What an element is known by: the values by the folded names."""
    names = [*map(known_name, node.parts[::2])]
    return {name: value for name, value in zip(names, node.parts[1::2]) if name} if any(names) else {}


def known_by(known: dict[str, str]) -> Known:
    """What people and programs know an element with these attributes by; `labels` is the id that it is a label for."""
    if not known:
        return NOTHING
    test_id = next(((name, value) for name, value in known.items() if name in TEST_IDS and value), ())
    name = next(filter(None, (tidy(known[name]) for name in NAMING if name in known)), "")
    return Known(known.get("id", ""), test_id, known.get("href", "") or known.get("src", ""), name, known.get("for", ""))


def digest(pairs: Iterable[tuple[str, str]]) -> int:
    """A number for some attributes, whatever their order. Others have the same number once in 2^60 or so, where a wrong pair does no harm."""
    return hash(frozenset(pairs))


def is_counted(identity: str) -> bool:
    """Whether an id looks like one of a row of numbered ones, which move on where something is put before them."""
    return COUNT.search(identity) is not None or DIGITS.search(LOT.sub("", identity)) is not None
