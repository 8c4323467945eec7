"""The assertions of EARL: what each is about, and what it says."""
from __future__ import annotations

import datetime
import re
from dataclasses import dataclass
from typing import Any, Iterator

from silvervole.collect.ends import End, Stop

from .places import Place, place_of
from .reading import BASE, TYPE, Statements, is_blank

EARL = "http://www.w3.org/ns/earl#"
# The second is written often, and means the first.
DUBLIN_CORE = ("http://purl.org/dc/terms/", "http://purl.org/dc/terms#", "http://purl.org/dc/elements/1.1/")
# Where else than in its own name the address of a subject, or of a test, may stand.
SUBJECT_PARTS = (*(f"{space}{part}" for part in ("source", "identifier") for space in DUBLIN_CORE), "https://schema.org/url", "http://schema.org/url")
TEST_PARTS = (*SUBJECT_PARTS, "http://www.w3.org/2002/07/owl#sameAs", "http://www.w3.org/2004/02/skos/core#exactMatch")
# The classes of outcomes, for those that a tool has of its own.
CLASSES = {"Pass": "passed", "Fail": "failed", "CannotTell": "cantTell", "NotApplicable": "inapplicable", "NotTested": "untested"}
DIGEST = re.compile(r"([0-9a-f]{64})(?: (.*))?", re.DOTALL)


@dataclass(frozen=True)
class Assertion:
    """One result of a test. `subjects` and `tests` are the names that either has, one of which may be known.

    `digest` is that of the evidence, where the file has it, else empty; and so is the date.
    """

    subjects: tuple[str, ...]
    tests: tuple[str, ...]
    mode: str
    outcome: str
    places: tuple[Place, ...]
    digest: str
    note: str
    date: str

    @property
    def test(self) -> str:
        """The test by its first name."""
        return self.tests[0] if self.tests else "no test"


class Reader:
    """Reads the assertions of what a file says."""

    def __init__(self, statements: Statements) -> None:
        self.statements = statements

    def all(self) -> Iterator[Assertion]:
        """Each result of each assertion, in the order of the file."""
        for one, about in self.statements.said.items():
            if f"{EARL}test" in about or f"{EARL}Assertion" in map(str, about.get(TYPE, ())):
                for result in self.statements.values(one, f"{EARL}result") or [None]:
                    yield self.assertion(one, result)

    def assertion(self, one: Any, result: Any) -> Assertion:
        """What is asserted by one result."""
        digest, note = self.info(result)
        return Assertion(
            self.names(self.statements.values(one, f"{EARL}subject"), SUBJECT_PARTS), self.names(self.statements.values(one, f"{EARL}test"), TEST_PARTS),
            next(map(short, self.statements.values(one, f"{EARL}mode")), ""),
            next(map(self.outcome, self.statements.values(result, f"{EARL}outcome")), ""),
            tuple(place_of(self.statements, pointer) for pointer in self.statements.values(result, f"{EARL}pointer")),
            digest, note, next(iter([*self.told(result, "date"), *self.told(one, "date")]), ""))

    def told(self, thing: Any, part: str) -> list[str]:
        """What is said of a thing in the words of Dublin Core."""
        return [str(value).strip() for space in DUBLIN_CORE for value in self.statements.values(thing, f"{space}{part}")]

    def names(self, things: list[Any], parts: tuple[str, ...]) -> tuple[str, ...]:
        """The names of things, each first by its own, then by what is said of it."""
        found = [text_of(thing) for thing in things if not is_blank(thing)]
        for about in (self.statements.about(thing) for thing in things):
            found += [text_of(value) for name in parts for value in about.get(name, ()) if not is_blank(value)]
        return tuple(dict.fromkeys(found))

    def outcome(self, value: Any) -> str:
        """The outcome's word in EARL, of one of the tool's own by its class."""
        own = [CLASSES[name] for name in map(short, [*self.statements.values(value, TYPE), value]) if name in CLASSES]
        return own[0] if own else short(value)

    def info(self, result: Any) -> tuple[str, str]:
        """The digest of the evidence, and what else is said."""
        said = [str(value).strip() for value in self.statements.values(result, f"{EARL}info")]
        for text in said:
            if found := DIGEST.fullmatch(text):
                return found[1], (found[2] or "").strip()
        return "", next(filter(None, [*said, *self.told(result, "description")]), "")


def text_of(value: Any) -> str:
    """A name, or a text; one without an address as it was written."""
    return str(value).removeprefix(BASE).strip()


def short(value: Any) -> str:
    """A name of EARL without its name space, however it is written."""
    return text_of(value).removeprefix(EARL).removeprefix("earl:")


def read_assertions(statements: Statements, path: str) -> list[Assertion]:
    """The assertions of a file; a Stop where it has none."""
    found = list(Reader(statements).all())
    if not found:
        raise Stop(End.INPUT, f"{path} has no assertion of EARL 1.0")
    return found


def is_earlier(one: str, other: str) -> bool:
    """Whether a date comes before another one; nothing is said where one isn't known."""
    try:
        return moment(one) < moment(other)
    except ValueError:
        return False


def moment(date: str) -> datetime.datetime:
    """The moment of a date, which is at its beginning in UTC where it says no more."""
    read = datetime.datetime.fromisoformat(date)
    return read if read.tzinfo else read.replace(tzinfo=datetime.timezone.utc)
