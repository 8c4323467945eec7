"""Which elements of a page others own by aria-owns, as the desk follows them."""
from __future__ import annotations

from typing import Any, Sequence

from silvervole import check_form


def owners_of(rows: Sequence[dict[str, Any]]) -> dict[int, tuple[int, ...]]:
    """By the number of each element that others own, theirs, in the order of the page.

    An id finds the first element that has it. An element doesn't own itself, nor what it stands in or holds.
    """
    lists = {row["n"]: value for row in rows if (value := check_form.attr(row, "aria-owns"))}
    if not lists:
        return {}
    places, ends = places_of(rows)
    first: dict[str, int] = {}
    for row in rows:
        if identity := check_form.attr(row, "id"):
            first.setdefault(identity, row["n"])
    found: dict[int, list[int]] = {}
    for owner, value in lists.items():
        for number in dict.fromkeys(first[token] for token in check_form.tokens(value) if token in first):
            if not places[owner] <= places[number] < ends[owner] and not places[number] <= places[owner] < ends[number]:
                found.setdefault(number, []).append(owner)
    return {number: tuple(owners) for number, owners in found.items()}


def places_of(rows: Sequence[dict[str, Any]]) -> tuple[dict[int, int], dict[int, int]]:
    """The place of each row, and that behind the last row in it."""
    places = {row["n"]: place for place, row in enumerate(rows)}
    ends: dict[int, int] = {}
    for row in reversed(rows):
        ends.setdefault(row["n"], places[row["n"]] + 1)
        if row["p"] is not None:
            ends[row["p"]] = max(ends.get(row["p"], 0), ends[row["n"]])
    return places, ends
