"""Finds the pairs of two snapshots of a page.

First come whole equal subtrees that each page has once, the largest before others; then what people and programs know an
element by, where each page has it once; then what lies around pairs, by less and less: around, between, and last by kind.
"""
from __future__ import annotations

from collections import Counter, defaultdict, deque
from typing import Callable, Hashable, Iterable, Iterator, Sequence

from silvervole.view.page import Page

from .outline import BLANK, Classes, Outline
from .pairs import NONE, Pairs

# A value by which a place is known again; None where there is none.
Key = Callable[[Outline, int], Hashable]
# How many elements above a pair are looked at, and how often, before what lies above them is looked at.
STEPS_UP, ROUNDS = 6, 8


def pair_pages(old: Page, new: Page) -> dict[int, int]:
    """The number of the old node for the number of each new node that has one, one to one."""
    classes = Classes()
    pairs = Pairs(Outline(old, classes), Outline(new, classes))
    find_pairs(pairs)
    return {pairs.new.nodes[place].number: pairs.old.nodes[partner].number
            for place, partner in enumerate(pairs.partner_of_new) if partner != NONE}


def find_pairs(pairs: Pairs) -> None:
    """Fills the pairs in."""
    pairs.pair(0, 0)
    pair_equal_subtrees(pairs)
    for key in (Outline.test_id, steady_id, Outline.called, Outline.leads):
        pair_single(pairs, key)
    spread(pairs, content)
    pair_in_order(pairs, content)
    spread(pairs, own)
    pair_in_order(pairs, Outline.called)
    pair_single(pairs, counted_id)
    spread(pairs, kind)
    pair_kids(pairs)
    spread(pairs, kind)


def content(outline: Outline, place: int) -> Hashable:
    """What people see and rules look at of a subtree."""
    return outline.content[place] or None


def own(outline: Outline, place: int) -> Hashable:
    """The same of an element alone."""
    return outline.own[place] or None


def kind(outline: Outline, place: int) -> Hashable:
    """The kind of a node."""
    return outline.kinds[place]


def steady_id(outline: Outline, place: int) -> Hashable:
    """An id that isn't one of a numbered row."""
    return outline.identity(place, counted=False)


def counted_id(outline: Outline, place: int) -> Hashable:
    """An id that may be one of a numbered row."""
    return outline.identity(place, counted=True)


def pair_equal_subtrees(pairs: Pairs) -> None:
    """Pairs equal subtrees that each page has once among what has no partner yet, the largest first.

    A text alone is no such subtree: what it says is known by its element.
    """
    found: list[tuple[int, int, list[int], list[int]]] = []
    for exactness, (olds, news) in enumerate(((pairs.old.content, pairs.new.content), (pairs.old.exact, pairs.new.exact))):
        groups_old, groups_new = (by_class(outline, numbers) for outline, numbers in ((pairs.old, olds), (pairs.new, news)))
        found += [(pairs.old.ends[group[0]] - group[0], exactness, group, groups_new[number])
                  for number, group in groups_old.items() if number in groups_new]
    for _, _, group_old, group_new in sorted(found, key=lambda one: one[:2], reverse=True):
        old, new = (single(group, partners) for group, partners in ((group_old, pairs.partner_of_old), (group_new, pairs.partner_of_new)))
        if old != NONE and new != NONE:
            pairs.pair_subtrees(old, new)


def by_class(outline: Outline, numbers: Sequence[int]) -> dict[int, list[int]]:
    """The elements of each class."""
    found: defaultdict[int, list[int]] = defaultdict(list)
    for place, node in enumerate(outline.nodes):
        if node.is_element:
            found[numbers[place]].append(place)
    return found


def single(places: list[int], partners: list[int]) -> int:
    """The one place without a partner; NONE where there is none, or more than one."""
    free = NONE
    for place in places:
        if partners[place] == NONE:
            if free != NONE:
                return NONE
            free = place
    return free


def grouped(outline: Outline, places: Iterable[int], key: Key) -> dict[Hashable, deque[int]]:
    """The places by their keys, in order."""
    found: defaultdict[Hashable, deque[int]] = defaultdict(deque)
    for place in places:
        value = key(outline, place)
        if value is not None:
            found[value].append(place)
    return found


def pair_single(pairs: Pairs, key: Key) -> None:
    """Pairs what has a key that stands once in each page among what has no partner."""
    olds, news = grouped(pairs.old, pairs.free_old(), key), grouped(pairs.new, pairs.free_new(), key)
    for value, places in olds.items():
        if len(places) == 1 and len(news.get(value, ())) == 1:
            pairs.pair(places[0], news[value][0])


def pair_in_order(pairs: Pairs, key: Key) -> None:
    """Pairs what has equal keys in the order of both pages, wherever it stands."""
    align(pairs, pairs.free_old(), pairs.free_new(), key)


def align(pairs: Pairs, olds: Iterable[int], news: Iterable[int], key: Key) -> None:
    """Pairs of some places those of equal keys, one after another; with equal contents all that is below them."""
    waiting = grouped(pairs.old, olds, key)
    for new in news:
        value = key(pairs.new, new)
        places = waiting.get(value)
        while places and pairs.partner_of_old[places[0]] != NONE:
            places.popleft()
        if not places or pairs.partner_of_new[new] != NONE:
            continue
        old = places.popleft()
        if pairs.old.content[old] == pairs.new.content[new] != BLANK:
            pairs.pair_subtrees(old, new)
        else:
            pairs.pair(old, new)


def spread(pairs: Pairs, key: Key) -> None:
    """Pairs what lies around pairs, as long as more is found: what is above them, and what comes before and after."""
    for _ in range(ROUNDS):
        before = pairs.count
        pair_above(pairs)
        for backwards in (False, True):
            for olds, news in gaps(pairs, backwards):
                align(pairs, olds, news, key)
        if pairs.count == before:
            return


def gaps(pairs: Pairs, backwards: bool) -> Iterator[tuple[list[int], list[int]]]:
    """What has no partner behind each pair and before the next in each page; or before each, from there on backwards."""
    step = -1 if backwards else 1
    for old, new in list(enumerate(pairs.partner_of_old)):
        if new != NONE:
            olds = run(pairs.partner_of_old, old + step, step)
            if olds and (news := run(pairs.partner_of_new, new + step, step)):
                yield olds, news


def run(partners: list[int], start: int, step: int) -> list[int]:
    """The places from a start on up to the next that has a partner."""
    found = []
    place = start
    while 0 <= place < len(partners) and partners[place] == NONE:
        found.append(place)
        place += step
    return found


def pair_above(pairs: Pairs) -> None:
    """Pairs elements of one kind that hold the partners of what the other holds, those that hold most first."""
    votes: Counter[tuple[int, int]] = Counter()
    for old, new in enumerate(pairs.partner_of_old):
        if new != NONE:
            olds, news = free_above(pairs.old, pairs.partner_of_old, old), free_above(pairs.new, pairs.partner_of_new, new)
            if olds and news:
                weight = pairs.old.ends[old] - old
                for pair in aligned_above(pairs, olds, news):
                    votes[pair] += weight
    for (old, new), _ in sorted(votes.items(), key=lambda one: (-one[1], one[0])):
        if pairs.free(old, new):
            pairs.pair(old, new)


def free_above(outline: Outline, partners: list[int], place: int) -> list[int]:
    """The elements above a place up to the first that has a partner, some few of them."""
    found: list[int] = []
    up = outline.parents[place]
    while up != NONE and partners[up] == NONE and len(found) < STEPS_UP:
        found.append(up)
        up = outline.parents[up]
    return found


def aligned_above(pairs: Pairs, olds: list[int], news: list[int]) -> Iterator[tuple[int, int]]:
    """Those above two partners that go together, from below to above: what is alike by itself, or else of one kind."""
    start = 0
    for old in olds:
        for numbers_old, numbers_new in ((pairs.old.own, pairs.new.own), (pairs.old.kinds, pairs.new.kinds)):
            place = next((place for place in range(start, len(news)) if numbers_new[news[place]] == numbers_old[old]), NONE)
            if place != NONE:
                yield old, news[place]
                start = place + 1
                break


def pair_kids(pairs: Pairs) -> None:
    """Pairs the children of pairs by their kinds, in order."""
    for old, new in list(enumerate(pairs.partner_of_old)):
        if new != NONE:
            align(pairs, (kid for kid in pairs.old.kids[old] if pairs.partner_of_old[kid] == NONE),
                  (kid for kid in pairs.new.kids[new] if pairs.partner_of_new[kid] == NONE), kind)
