"""CSV for people: a row for each finding, which a spreadsheet shows."""
from __future__ import annotations

import csv
import io

from silvervole.collect.ends import one_line

from .listing import WORDS, Entry, Listing
from .words import accepted_line, criteria_of, rule_title, unmatched_line

HEADER = ("address", "page", "rule", "criterion", "outcome", "path", "start tag", "by whom", "since the earlier audit", "accepted")
# The column behind them, where what people judged was given.
SAID = "what was said"
# A spreadsheet computes a cell that begins so, and what a page says must not be computed.
COMPUTED = ("=", "+", "-", "@", "\t", "\r")


def write_csv(listing: Listing) -> bytes:
    """The rows: what fails first, what is accepted last, beneath a composite what it merges. Excel tells by the mark at the front that it's UTF-8."""
    made = io.StringIO()
    writer = csv.writer(made)
    writer.writerow((*HEADER, SAID) if listing.said else HEADER)

    def write(row: tuple[str, ...], said: tuple[str, ...] = ()) -> None:
        writer.writerow(map(cell, (*row, "; ".join(said)) if listing.said else row))

    for entry in listing:
        write(row_of(entry), entry.said)
        for merged in entry.beneath:
            write(row_of(merged, f"counts under {entry.rule.id}: "), merged.said)
    for lost in listing.lost:
        write((lost.name, "", "", "", f"not checked: {lost.why}", "", "", "", "", ""))
    for acceptance in listing.unmatched:
        write(("", "", acceptance.rule, "", "", acceptance.place, "", "", "", unmatched_line(acceptance)))
    return made.getvalue().encode("utf-8-sig", "replace")


def row_of(entry: Entry, before: str = "") -> tuple[str, ...]:
    """The cells of a finding."""
    state = f" ({entry.page.state})" if entry.page.state else ""
    path = entry.target.path or entry.where
    return (entry.page.address, f"{entry.page.title.text or entry.page.name}{state}", f"{before}{rule_title(entry)}", criteria_of(entry),
            WORDS[entry.outcome], path, entry.target.tag, entry.judge, entry.change,
            accepted_line(entry.acceptance) if entry.acceptance else "")


def cell(text: str) -> str:
    """The text of a cell, which no spreadsheet computes."""
    plain = one_line(text)
    return f"'{plain}" if plain.startswith(COMPUTED) else plain
