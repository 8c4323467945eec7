"""Fingerprints of findings, by which services tell that a finding is the one of an earlier run.

A fingerprint is a hash of the page's address and state, the rule, what the element is known by, and its place among
equals. An element is known by the first of these that it has: an id that tests know it by; an id that isn't made anew
with each build, nor one of a numbered row; its kind and what people call it; the way down to it from the nearest
element above with such an id. Equals are the rule's targets that are known by the same, whatever their outcomes. So a
fingerprint stays while the element does: the number of its node, its outcome and the rest of the page may change.

Where two audits are compared, what the later one has in common with the earlier, by the pairs that the comparison
found, has the fingerprint of the earlier one, even if the element was given another id and another name.
"""
from __future__ import annotations

import hashlib
import json
from collections import Counter
from typing import Hashable, Iterable, Mapping, Sequence

from silvervole.compare.places import Place
from silvervole.pairing.identity import TEST_IDS, is_counted, kind_of
from silvervole.view.page import Node, Page
from silvervole.view.report import Finding

# A finding of a page: its rule and its node.
Key = tuple[str, int]
LENGTH = 32


def own_id(element: Node) -> tuple[str, str] | None:
    """The id that an element is known by; None where it has none that lasts."""
    for name in TEST_IDS:
        if value := element.attribute(name):
            return name, value
    identity = element.attribute("id")
    return ("id", identity) if identity and not is_counted(identity) else None


def way_to(element: Node) -> Iterable[Hashable]:
    """The steps up from an element to the nearest one with an id that lasts, or to the root."""
    at: Node | None = element
    while at is not None:
        known = own_id(at)
        yield known or (at.folded, at.parent.of_tag_places[at.number] if at.parent else 1)
        at = None if known else at.parent


def known_by(page: Page | None, place: Place) -> tuple[Hashable, ...]:
    """What the element of a node is known by; without a snapshot the node's number alone."""
    if page is None:
        return "node", place.number
    element = page.nodes[place.number].element
    if (known := own_id(element)) is not None:
        return known
    return ("label", kind_of(element), place.label) if place.label else ("way", *way_to(element))


def fingerprints(address: str, page: Page | None, findings: Iterable[Finding], places: Mapping[int, Place]) -> dict[Key, str]:
    """The fingerprint of each finding on a page, no two of them the same."""
    state = page.state if page is not None else ""
    known = {number: known_by(page, place) for number, place in places.items()}
    equals: Counter[tuple[str, tuple[Hashable, ...]]] = Counter()
    made = {}
    for finding in findings:
        equal = finding.rule, known[finding.node]
        equals[equal] += 1
        made[finding.rule, finding.node] = hashed(address, state, *equal, equals[equal])
    return made


def hashed(*parts: Hashable) -> str:
    """The hash of these parts, as hexadecimal digits."""
    return hashlib.sha256(json.dumps(parts).encode("utf-8")).hexdigest()[:LENGTH]


def kept(old: Mapping[Key, str], new: Mapping[Key, str], pairs: Sequence[tuple[Key, Key]]) -> dict[Key, str]:
    """The fingerprints of the new findings, each that is paired with an old one having the old one's."""
    made = {new_key: old[old_key] for old_key, new_key in pairs}
    taken = set(made.values())
    for key, fingerprint in new.items():
        if key in made:
            continue
        while fingerprint in taken:
            # An equal that was paired has it already.
            fingerprint = hashed(fingerprint)
        made[key] = fingerprint
        taken.add(fingerprint)
    return made
