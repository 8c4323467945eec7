"""The one list of findings of which each format is made."""
from __future__ import annotations

from collections import Counter
from dataclasses import dataclass
from typing import Iterable, Iterator

from silvervole.accepted.reading import Acceptance
from silvervole.compare.places import Place
from silvervole.view.findings import Findings, Target
from silvervole.view.page import Page, Quote
from silvervole.view.pictures import Picture
from silvervole.view.report import OUTCOMES
from silvervole.view.rules import Advice, Rule

NEW, STAYS, MENDED = "new", "stays", "mended"
# The order in which people read: what is new first, what is mended last. Nothing is said where nothing was compared.
CHANGES = ("", NEW, STAYS, MENDED)
WORDS = {"failed": "failed", "cantTell": "to judge", "passed": "passed"}


@dataclass(frozen=True)
class AboutPage:
    """What is said of a page as a whole.

    `name` is its address, or the name of its files in a folder. `file` is the page's own file, `snapshot` its snapshot's,
    each empty where it is in none. `seconds` is how long it took to collect and audit it, None where nobody measured.
    """

    name: str
    address: str
    title: Quote = Quote("", "")
    state: str = ""
    revision: int | None = None
    nodes: int | None = None
    file: str = ""
    snapshot: str = ""
    seconds: float | None = None
    note: str = ""

    @property
    def shown(self) -> str:
        """The page's name, and its state where it has one."""
        return f"{self.name} ({self.state})" if self.state else self.name


@dataclass(frozen=True)
class Entry:
    """A finding with all that the formats say of it.

    `change` is empty where nothing was compared. `beneath` are the findings that a composite merges; each of those has the
    composite in `merged_in`, and fails through it alone. `said` has a line for each judgement, where those were given. `acceptance` is there where the team's file has one for it, also
    where that doesn't last any more.
    """

    page: AboutPage
    rule: Rule
    outcome: str
    reason: str
    judge: str
    automatic: str
    advice: Advice | None
    target: Target
    place: Place
    fingerprint: str
    file: str
    line: int
    change: str = ""
    beneath: tuple[Entry, ...] = ()
    merged_in: str = ""
    acceptance: Acceptance | None = None
    said: tuple[str, ...] = ()

    @property
    def is_accepted(self) -> bool:
        """Whether it failed, and the team accepts that for now."""
        return self.outcome == "failed" and self.change != MENDED and self.acceptance is not None and self.acceptance.lasts

    @property
    def fails(self) -> bool:
        """Whether a pipeline ends at it: it failed, is new where audits were compared, and isn't accepted."""
        return self.outcome == "failed" and self.change in ("", NEW) and not self.merged_in and not self.is_accepted

    @property
    def title(self) -> str:
        """The rule's name, or its id where no name is known."""
        return self.rule.name or f"Rule {self.rule.id}"

    @property
    def why(self) -> str:
        """The reason's word, or who judged it."""
        return f"judged by {self.judge}" if self.judge else self.reason

    @property
    def where(self) -> str:
        """The element as people find it; the node's number where no snapshot was given."""
        return str(self.place).removesuffix(f" (node {self.place.number})")

    @property
    def state_of_things(self) -> str:
        """The outcome, and what became of it where audits were compared: `new failed`."""
        return f"{self.change} {WORDS[self.outcome]}".strip()


@dataclass(frozen=True)
class ListedPage:
    """A page with its findings in order, the worst first; the view of them where its snapshot was given."""

    about: AboutPage
    entries: tuple[Entry, ...]
    inapplicable: tuple[Rule, ...] = ()
    view: Findings | None = None
    picture: Picture | None = None
    page: Page | None = None


@dataclass(frozen=True)
class LostPage:
    """A page that couldn't be checked: its address or file, and why."""

    name: str
    why: str


@dataclass(frozen=True)
class Listing:
    """The findings of all pages; whether two audits were compared, and judgements given; pages that couldn't be checked; acceptances that match nothing."""

    pages: tuple[ListedPage, ...]
    compared: bool = False
    unmatched: tuple[Acceptance, ...] = ()
    lost: tuple[LostPage, ...] = ()
    said: bool = False

    def __iter__(self) -> Iterator[Entry]:
        """All findings, the worst first whatever their page."""
        return iter(worst_first(entry for page in self.pages for entry in page.entries))

    @property
    def counting(self) -> list[Entry]:
        """The findings that aren't accepted."""
        return [entry for entry in self if not entry.is_accepted]

    @property
    def accepted(self) -> list[Entry]:
        """The findings that the team accepts for now."""
        return [entry for entry in self if entry.is_accepted]

    @property
    def fails(self) -> bool:
        """Whether a pipeline ends at it."""
        return any(entry.fails for entry in self)

    @property
    def counts(self) -> Counter[tuple[str, str]]:
        """How many findings that aren't accepted there are, by their change and outcome."""
        return Counter((entry.change, entry.outcome) for entry in self.counting)


def worst_first(entries: Iterable[Entry]) -> list[Entry]:
    """The findings in the order in which people read them: what fails first, what is accepted last."""
    return sorted(entries, key=lambda entry: (entry.is_accepted, CHANGES.index(entry.change), OUTCOMES.index(entry.outcome)))


def groups(listing: Listing) -> list[tuple[tuple[str, str], list[Entry]]]:
    """The findings that aren't accepted, by their change and outcome, the worst first."""
    made: dict[tuple[str, str], list[Entry]] = {}
    for entry in listing.counting:
        made.setdefault((entry.change, entry.outcome), []).append(entry)
    return list(made.items())
