"""Reads the file of accepted findings: rule, place, reason, who, and until when, in TOML."""
from __future__ import annotations

import datetime
import re
import tomllib
from dataclasses import dataclass

from silvervole.collect.ends import End, Stop, one_line
from silvervole.view.rules import RuleTable

FINGERPRINT = re.compile(r"[0-9a-f]{32}")
ANY_PAGE = "*"
TEXTS = ("rule", "place", "reason", "who")
KEYS = {*TEXTS, "until"}


@dataclass(frozen=True)
class Acceptance:
    """One accepted finding: why, by whom, the last day on which it counts, and whether that day is still to come."""

    rule: str
    place: str
    reason: str
    who: str
    until: datetime.date
    lasts: bool

    @property
    def fingerprint(self) -> str:
        """The fingerprint that the place is; empty where it is a page and a path."""
        return self.place if FINGERPRINT.fullmatch(self.place) else ""

    @property
    def page(self) -> str:
        """The page's address or name, `*` for each page."""
        return self.place.partition(" ")[0]

    @property
    def path(self) -> str:
        """The CSS path on the page."""
        return self.place.partition(" ")[2].strip()


def read_accepted(path: str, table: RuleTable, today: datetime.date) -> tuple[Acceptance, ...]:
    """What the file accepts, in its order; a Stop with the status INPUT that says what is wrong with it."""
    def refuse(why: str) -> Stop:
        return Stop(End.INPUT, f"{path} is no file of accepted findings: {why}")

    try:
        with open(path, "rb") as file:
            given = tomllib.load(file)
    except OSError as error:
        raise Stop(End.INPUT, f"{path} can't be read: {error.strerror}") from None
    except (tomllib.TOMLDecodeError, UnicodeDecodeError) as error:
        raise refuse(f"it isn't TOML: {error}") from None
    entries = given.get("accepted", [])
    if set(given) - {"accepted"} or not isinstance(entries, list) or not all(isinstance(entry, dict) for entry in entries):
        raise refuse("it holds something else than tables [[accepted]]")
    try:
        return tuple(acceptance_of(entry, f"its entry {number}", table, today) for number, entry in enumerate(entries, 1))
    except ValueError as error:
        raise refuse(str(error)) from None


def acceptance_of(entry: dict[str, object], what: str, table: RuleTable, today: datetime.date) -> Acceptance:
    """The acceptance that a table of the file is; a ValueError says why it is none."""
    if unknown := sorted(set(entry) - KEYS):
        raise ValueError(f"{what} has {unknown[0]}, which is none of {', '.join(sorted(KEYS))}")
    texts = {}
    for key in TEXTS:
        text = entry.get(key)
        if not isinstance(text, str) or not text.strip():
            raise ValueError(f"{what} has no {key}")
        texts[key] = one_line(text)
    until = entry.get("until")
    if not isinstance(until, datetime.date) or isinstance(until, datetime.datetime):
        raise ValueError(f"{what} has no until, which is a day without quotes, as in until = 2027-03-31")
    made = Acceptance(**texts, until=until, lasts=today <= until)
    if not table.rule(made.rule).is_known:
        raise ValueError(f"{what} is of {made.rule}, which is no rule of the desk")
    if not (made.fingerprint or made.path):
        raise ValueError(f"{what} has a place that is neither a fingerprint nor a page and a path on it")
    return made
