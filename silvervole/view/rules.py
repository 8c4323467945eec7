"""The rules' names, pages, criteria, and what their reasons mean: silvervole/data/rules.json."""
from __future__ import annotations

import json
import pathlib
from dataclasses import dataclass
from functools import cached_property
from typing import Iterable

from silvervole.books import BOOKS

DATA = pathlib.Path(__file__).resolve().parent.parent / "data" / "rules.json"


@dataclass(frozen=True)
class Criterion:
    """A success criterion of WCAG 2.2."""

    number: str
    level: str
    name: str
    link: str


@dataclass(frozen=True)
class Advice:
    """What a reason means, and what usually mends it."""

    means: str
    mends: str


@dataclass(frozen=True)
class Rule:
    """A published rule; one that the file doesn't know has its id alone."""

    id: str
    name: str
    link: str
    criteria: tuple[Criterion, ...]
    advice: dict[tuple[str, str], Advice]
    # Of a composite the rules that it merges; and whether the rule is on whole pages alone.
    inputs: tuple[str, ...] = ()
    not_in_frames: bool = False
    number: int = 0

    @property
    def is_known(self) -> bool:
        return self.name != ""

    def advice_for(self, reason: str, outcome: str) -> Advice | None:
        """What is said of a reason with its outcome; None where the file says nothing."""
        return self.advice.get((reason, outcome))


@dataclass(frozen=True)
class RuleTable:
    """All rules and criteria of the file, in its order."""

    rules: dict[str, Rule]
    criteria: tuple[Criterion, ...]

    @cached_property
    def composites(self) -> dict[str, str]:
        """The composite of each rule that is merged."""
        return {identity: rule.id for rule in self.rules.values() for identity in rule.inputs}

    def of_book(self, book: str) -> tuple[str, ...]:
        """The ids of the rules of a book, in the order of their numbers."""
        return tuple(rule.id for rule in self.rules.values() if rule.number <= BOOKS[book])

    def book_with(self, rules: Iterable[str]) -> str:
        """The least book that has all of these rules, as far as the file knows them."""
        greatest = max((self.rule(identity).number for identity in rules), default=0)
        return next(book for book, last in BOOKS.items() if greatest <= last)

    def rule(self, identity: str) -> Rule:
        """The rule of an id."""
        return self.rules.get(identity) or Rule(identity, "", "", (), {})


def read_rules(path: pathlib.Path = DATA) -> RuleTable:
    """The table that the file holds."""
    data = json.loads(path.read_text(encoding="utf-8"))
    criteria = {given["number"]: Criterion(given["number"], given["level"], given["name"],
                                           data["criterion_page"].format(anchor=given["anchor"]))
                for given in data["criteria"]}
    rules = {}
    for given in data["rules"]:
        advice = {(one["reason"], one["outcome"]): Advice(one["means"], one["mends"]) for one in given["reasons"]}
        rules[given["id"]] = Rule(given["id"], given["name"], data["rule_page"].format(id=given["id"]),
                                  tuple(criteria[number] for number in given["criteria"]), advice,
                                  tuple(given.get("inputs", ())), given.get("not_in_frames", False), given["number"])
    return RuleTable(rules, tuple(criteria.values()))
