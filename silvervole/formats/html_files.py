"""The view of findings as HTML: of one page its own file, of many a list of them, and each beside it."""
from __future__ import annotations

import os
from dataclasses import replace
from typing import Iterator

from silvervole.collect.ends import End, Stop
from silvervole.view.findings import CriterionLine, Findings, RulePart

from .listing import NEW, Entry, ListedPage, Listing
from .words import accepted_line, lost_line, unmatched_line

Key = tuple[str, int]


def html_files(listing: Listing, path: str) -> Iterator[tuple[str, bytes]]:
    """The files and their bytes; a Stop with the status USAGE where a page's snapshot isn't given."""
    from silvervole.view.writing import write_list, write_view  # only here Jinja2 is needed

    views = [(page, view_of(page)) for page in listing.pages if page.view is not None or page.entries]
    unmatched = tuple(map(unmatched_line, listing.unmatched))
    if len(views) == 1 and not listing.lost:
        page, view = views[0]
        yield path, write_view(replace(view, unmatched=unmatched), page.picture).encode("utf-8")
        return
    stem, ending = os.path.splitext(path)
    files = [f"{stem}-{number}{ending or '.html'}" for number in range(1, len(views) + 1)]
    for file, (page, view) in zip(files, views):
        yield file, write_view(view, page.picture).encode("utf-8")
    yield path, write_list([(os.path.basename(file), view) for file, (_, view) in zip(files, views)], unmatched,
                           tuple(map(lost_line, listing.lost))).encode("utf-8")


def view_of(page: ListedPage) -> Findings:
    """The view of a page, with what is accepted apart, and what is said of single findings."""
    if page.view is None:
        raise Stop(End.USAGE, "--html needs the snapshots, of which the reports speak")
    accepted = {key_of(entry) for entry in page.entries if entry.is_accepted}
    sections = {outcome: split(parts, accepted, False) for outcome, parts in page.view.sections.items()}
    apart = tuple(replace(part, outcome="accepted") for part in split(page.view.sections["failed"], accepted, True))
    counts = {outcome: sum(part.count for part in parts) for outcome, parts in sections.items()}
    criteria = tuple(line_of(line, sections, apart) for line in page.view.criteria)
    return replace(page.view, sections=sections, counts=counts, accepted=apart, criteria=criteria,
                   notes={key_of(one): notes for entry in page.entries for one in (entry, *entry.beneath) if (notes := notes_of(one))})


def key_of(entry: Entry) -> Key:
    """The finding's rule and node."""
    return entry.rule.id, entry.target.number


def split(parts: tuple[RulePart, ...], accepted: set[Key], wanted: bool) -> tuple[RulePart, ...]:
    """The parts of those findings that are accepted, or that aren't."""
    made = []
    for part in parts:
        reasons = [replace(reason, targets=tuple(target for target in reason.targets if ((part.rule.id, target.number) in accepted) is wanted))
                   for reason in part.parts]
        made.append(replace(part, parts=tuple(reason for reason in reasons if reason.targets)))
    return tuple(part for part in made if part.parts)


def line_of(line: CriterionLine, sections: dict[str, tuple[RulePart, ...]], apart: tuple[RulePart, ...]) -> CriterionLine:
    """The line of a criterion, in which what is accepted doesn't count as failed."""
    rules = {part.rule.id for part in line.rules}
    parts = [part for part in (*(part for parts in sections.values() for part in parts), *apart) if part.rule.id in rules]
    counts = {outcome: sum(part.count for part in parts if part.outcome == outcome) for outcome in line.counts}
    return replace(line, counts=counts, rules=tuple(parts))


def notes_of(entry: Entry) -> tuple[str, ...]:
    """What is said of a finding besides what its audit says."""
    new = ("New since the earlier audit.",) if entry.change == NEW else ()
    return (*new, *entry.said, f"{accepted_line(entry.acceptance)}.") if entry.acceptance else (*new, *entry.said)
