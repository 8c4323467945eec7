"""Finds the node of a page that a place of EARL means."""
from __future__ import annotations

import urllib.parse
from functools import cached_property

from silvervole.collect.ends import one_line
from silvervole.view.page import Page

from .places import Kind, Place, Pointer
from .selecting import Elements, Unreadable
from .subjects import Subjects


class Unmapped(Exception):
    """Why something has no counterpart at the desk."""


class Finder:
    """Finds nodes of one page."""

    def __init__(self, page: Page, subjects: Subjects) -> None:
        self.page, self.subjects = page, subjects

    @cached_property
    def elements(self) -> Elements:
        """The page's elements, made for the first selector."""
        return Elements(self.page)

    def node(self, place: Place) -> int:
        """The number of the one node that a place means; of several pointers those count that lead anywhere."""
        found: set[int] = set()
        why: Unmapped | None = None
        for pointer in place.pointers:
            try:
                found.add(self.at(pointer))
            except Unmapped as unmapped:
                why = why or unmapped
        if len(found) > 1:
            raise Unmapped(f"its pointers lead to different nodes: {', '.join(map(str, sorted(found)))}")
        if not found:
            raise why or Unmapped("it says no place")
        return found.pop()

    def at(self, pointer: Pointer) -> int:
        """The number of the one node that a pointer leads to."""
        if pointer.kind is Kind.NODE:
            number = int(pointer.text.removeprefix("node "))
            if number not in self.page.nodes:
                raise Unmapped(f"the page has no {pointer.text}")
            return number
        if pointer.kind is Kind.OTHER:
            raise Unmapped(f"its pointer is of a kind that isn't known: {pointer.text}")
        found = self.matches(pointer)
        if len(found) != 1:
            raise Unmapped(f"its {pointer.kind.value} matches {len(found) or 'no'} element{'s' if found else ''}")
        return found[0]

    def matches(self, pointer: Pointer) -> list[int]:
        """The numbers of all elements that a pointer leads to."""
        try:
            if pointer.kind is Kind.ADDRESS:
                return self.by_fragment(pointer.text)
            return self.elements.by_css(pointer.text) if pointer.kind is Kind.CSS else self.elements.by_xpath(pointer.text)
        except Unreadable as error:
            raise Unmapped(f"its {pointer.kind.value} can't be read: {one_line(str(error))}") from None

    def by_fragment(self, address: str) -> list[int]:
        """The elements whose id is the fragment of an address of the page."""
        front, fragment = urllib.parse.urldefrag(address)
        if not fragment or not self.subjects.has(front):
            raise Unmapped("its pointer is an address of another page, or without a fragment")
        identity = urllib.parse.unquote(fragment)
        return [node.number for node in self.page.nodes.values() if node.is_element and node.attribute("id") == identity]
