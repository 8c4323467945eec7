"""The contexts of JSON-LD. None is fetched: one that is only named stands here, or in a copy that the words name."""
from __future__ import annotations

import json
import pathlib
import re
from typing import Any, Mapping

from silvervole.collect.ends import End, Stop
from silvervole.view.files import read

DATA = pathlib.Path(__file__).resolve().parent.parent / "data" / "earl-context.json"
# The name space of EARL itself, and the context that tools for ACT rules name, wherever it is published.
OWN = re.compile(r"https?://(?:www\.w3\.org/ns/earl(?:#|\.jsonld)?|[^\s?#]+/earl-context\.json(?:ld)?)")
# Contexts may name each other in a circle.
MOST_NAMED = 20
PREFIXES = {"earl": "http://www.w3.org/ns/earl#"}
Copies = Mapping[str, str]


def standing_alone(document: Any, copies: Copies) -> dict[str, Any]:
    """The document with each context that it names in its place; the prefix earl holds also where it has no context."""
    if not isinstance(document, dict):
        document = {"@graph": document}
    given = document.get("@context", [])
    return {**resolved(document, copies), "@context": [PREFIXES, *as_list(context(given, copies, 0))]}


def as_list(value: Any) -> list[Any]:
    """The members of a list, or the one value."""
    return value if isinstance(value, list) else [value]


def resolved(value: Any, copies: Copies) -> Any:
    """A part of a document with the contexts in the place of their names."""
    if isinstance(value, list):
        return [resolved(one, copies) for one in value]
    if isinstance(value, dict):
        return {name: context(one, copies, 0) if name == "@context" else resolved(one, copies) for name, one in value.items()}
    return value


def context(value: Any, copies: Copies, named: int) -> Any:
    """A context, in which so many were named around it, with those in place that it names."""
    if isinstance(value, str):
        return loaded(value, copies, named)
    if isinstance(value, list):
        return [part for one in value for part in as_list(context(one, copies, named))]
    if not isinstance(value, dict):
        return value
    imported = loaded(value["@import"], copies, named) if isinstance(value.get("@import"), str) else {}
    own = {name: term(one, copies, named) for name, one in value.items() if name != "@import"}
    return {**imported, **own} if isinstance(imported, dict) else [*as_list(imported), own]


def term(value: Any, copies: Copies, named: int) -> Any:
    """What a context says of a term, which may have a context of its own."""
    if isinstance(value, dict) and "@context" in value:
        return {**value, "@context": context(value["@context"], copies, named)}
    return value


def loaded(address: str, copies: Copies, named: int) -> Any:
    """The context of an address, from a copy or from here; a Stop where it isn't known."""
    if named == MOST_NAMED:
        raise Stop(End.INPUT, f"its contexts name each other in a circle: {address}")
    if address in copies:
        return context(read_context(read(copies[address]), copies[address]), copies, named + 1)
    if OWN.fullmatch(address):
        return read_context(DATA.read_bytes(), str(DATA))
    raise Stop(End.INPUT, f"its context {address} isn't known here, and none is fetched: --context {address}=FILE names a copy of it")


def read_context(data: bytes, path: str) -> Any:
    """The context that a file holds."""
    try:
        return json.loads(data)["@context"]
    except (ValueError, KeyError, TypeError, RecursionError):
        raise Stop(End.INPUT, f"{path} is no context: it is no JSON object with the member @context") from None
