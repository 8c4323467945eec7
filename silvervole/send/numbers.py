"""The numbers of a page's nodes in its next version.

A node that the kept page has keeps its number, and every other gets one above the greatest that the page has had. That one is
never lost: a version whose nodes all have lower numbers than the kept page's greatest gives a new greatest to a node that nobody
judges, a text for the most part. So the greatest number of a page is always the greatest that it has had.
"""
from __future__ import annotations

from typing import Iterable

from silvervole.check_form import GREATEST_NUMBER
from silvervole.collect.ends import End, Stop
from silvervole.view.page import Page


def numbers_of(kept: Page, page: Page, pairs: dict[int, int], judged: Iterable[int]) -> dict[int, int]:
    """The number to send for each node of a page, by its own number.

    `pairs` has the kept node for those that have one, and `judged` the kept nodes with an outcome.
    """
    greatest = max(kept.nodes)
    free = iter(range(greatest + 1, GREATEST_NUMBER + 1))
    try:
        numbers = {number: pairs[number] if number in pairs else next(free) for number in page.nodes}
        if max(numbers.values()) < greatest:
            numbers[bearer(page, numbers, set(judged))] = next(free)
    except StopIteration:
        raise Stop(End.LIMIT, f"the page's numbers reach {GREATEST_NUMBER:,}, and none is left for new nodes") from None
    return numbers


def bearer(page: Page, numbers: dict[int, int], judged: set[int]) -> int:
    """The node that gets the greatest number: the last text, else the last element without an outcome, else the last."""
    ranks = {number: (not node.is_element, numbers[number] not in judged) for number, node in page.nodes.items()}
    return max(reversed(page.nodes), key=ranks.__getitem__)
