"""What a result points at: as text, or by the classes of the W3C's vocabulary of pointers."""
from __future__ import annotations

import enum
import re
from dataclasses import dataclass
from typing import Any

from .reading import TYPE, Statements, is_blank, is_literal

XPATH_FRONT = re.compile(r"[/(]|\./|id\(")
# Groups may stand in each other, and in a circle too.
DEEPEST = 4


class Kind(enum.Enum):
    """How a pointer is written."""

    NODE = "node"
    CSS = "CSS selector"
    XPATH = "XPath"
    ADDRESS = "address"
    OTHER = "other"


@dataclass(frozen=True)
class Pointer:
    """A pointer: its text, of another kind the name of that."""

    kind: Kind
    text: str


@dataclass(frozen=True)
class Place:
    """One place, by pointers that all lead there."""

    pointers: tuple[Pointer, ...]

    def __str__(self) -> str:
        return self.pointers[0].text


def pointer_of(text: str) -> Pointer:
    """The pointer that a text is."""
    text = text.strip()
    if found := re.fullmatch(r"node ([1-9][0-9]{0,9})", text):
        return Pointer(Kind.NODE, found[0])
    if re.match(r"https?://", text):
        return Pointer(Kind.ADDRESS, text)
    return Pointer(Kind.XPATH if XPATH_FRONT.match(text) else Kind.CSS, text)


def place_of(statements: Statements, given: Any) -> Place:
    """The place that a pointer leads to."""
    return Place(tuple(dict.fromkeys(pointers_of(statements, given, DEEPEST))) or (Pointer(Kind.OTHER, "an empty group"),))


def pointers_of(statements: Statements, given: Any, depth: int) -> list[Pointer]:
    """The pointers that stand at a pointer: itself, or of a group those in it."""
    if is_literal(given):
        return [typed(str(given), [local(given.datatype)] if given.datatype else [])]
    about = statements.about(given)
    if not about and not is_blank(given):
        return [pointer_of(str(given))]
    named = {local(name): values for name, values in about.items()}
    if depth and "groupPointer" in named:
        return [pointer for value in named["groupPointer"] for pointer in pointers_of(statements, value, depth - 1)]
    types = [*map(local, about.get(TYPE, ()))]
    return [typed(str(text), types) for text in named.get("expression", ())] or [Pointer(Kind.OTHER, next(iter(types), "nothing that is known"))]


def typed(text: str, types: list[str]) -> Pointer:
    """The pointer of an expression whose class is known."""
    for name in types:
        if name.lower().startswith("cssselector"):
            return Pointer(Kind.CSS, text.strip())
        if name.lower().startswith("xpath"):
            return Pointer(Kind.XPATH, text.strip())
        if name.endswith("Pointer"):
            return Pointer(Kind.OTHER, name)
    return pointer_of(text)


def local(name: Any) -> str:
    """A name without its name space."""
    return re.split(r"[/#]", str(name))[-1]
