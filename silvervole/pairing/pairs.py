"""The pairs of two outlines, while they are found."""
from __future__ import annotations

from .outline import Outline

NONE = -1


class Pairs:
    """One-to-one pairs of the places of two outlines: each place's partner, NONE where it has none."""

    def __init__(self, old: Outline, new: Outline) -> None:
        self.old, self.new = old, new
        self.partner_of_old = [NONE] * len(old)
        self.partner_of_new = [NONE] * len(new)
        self.count = 0

    def free(self, old: int, new: int) -> bool:
        """Whether neither has a partner."""
        return self.partner_of_old[old] == NONE and self.partner_of_new[new] == NONE

    def pair(self, old: int, new: int) -> None:
        """Makes a pair of two that have no partner."""
        self.partner_of_old[old] = new
        self.partner_of_new[new] = old
        self.count += 1

    def pair_subtrees(self, old: int, new: int) -> None:
        """Makes pairs of two nodes of equal content and of all below them, but for what has a partner already."""
        waiting = [(old, new)]
        while waiting:
            old, new = waiting.pop()
            if self.free(old, new):
                self.pair(old, new)
            kids_old, kids_new = self.old.kids[old], self.new.kids[new]
            if kids_old and kids_new:
                waiting += zip(self.old.written(kids_old), self.new.written(kids_new))
                waiting += zip(self.old.blank(kids_old), self.new.blank(kids_new))

    def free_old(self) -> list[int]:
        """The places of the old outline without a partner."""
        return [place for place, partner in enumerate(self.partner_of_old) if partner == NONE]

    def free_new(self) -> list[int]:
        """The places of the new outline without a partner."""
        return [place for place, partner in enumerate(self.partner_of_new) if partner == NONE]
