"""Finds what a team accepted among the findings."""
from __future__ import annotations

from dataclasses import replace
from typing import Sequence

from silvervole.formats.listing import MENDED, Entry, ListedPage, Listing, worst_first

from .reading import ANY_PAGE, Acceptance


def with_accepted(listing: Listing, acceptances: Sequence[Acceptance]) -> Listing:
    """The list, in which each failed finding has its acceptance. An acceptance that no finding has is named as one that matches nothing."""
    pages = tuple(accepted_page(page, acceptances) for page in listing.pages)
    return replace(listing, pages=pages, unmatched=tuple(one for one in acceptances if not any(matches(one, entry) for entry in listing)))


def accepted_page(page: ListedPage, acceptances: Sequence[Acceptance]) -> ListedPage:
    """The page, in which each failed finding has its acceptance, the longest where there is more than one. No outcome changes."""
    longest = sorted(acceptances, key=lambda one: one.until, reverse=True)
    entries = (replace(entry, acceptance=next((one for one in longest if matches(one, entry)), None)) for entry in page.entries)
    return replace(page, entries=tuple(worst_first(entries)))


def matches(acceptance: Acceptance, entry: Entry) -> bool:
    """Whether an acceptance is of this finding, which failed."""
    if acceptance.rule != entry.rule.id or entry.outcome != "failed" or entry.change == MENDED:
        return False
    if acceptance.fingerprint:
        return acceptance.fingerprint == entry.fingerprint
    return acceptance.path == entry.target.path and acceptance.page in (ANY_PAGE, entry.page.address, entry.page.name)
