"""Markdown for a comment in a pull request: new failures first, and never more than a comment holds."""
from __future__ import annotations

import re
from typing import Iterator

from silvervole.collect.ends import one_line
from silvervole.view.page import shortened

from .listing import MENDED, NEW, STAYS, Entry, Listing, groups
from .words import accepted_line, advice_of, lost_line, merged_of, sums, unmatched_line

MOST_BYTES = 60_000
# Kept free for the line that says what is left out.
LAST_BYTES = 100
LONGEST = 300
HEADINGS = {("", "failed"): "Failed", ("", "cantTell"): "For a person to judge", (NEW, "failed"): "New failures",
            (NEW, "cantTell"): "New, for a person to judge", (STAYS, "failed"): "Failed before too",
            (STAYS, "cantTell"): "For a person to judge, as before", (MENDED, "failed"): "Mended", (MENDED, "cantTell"): "Judged, or gone"}


def write_markdown(listing: Listing) -> bytes:
    """The findings that failed or are to judge, and apart from them what is accepted, in at most 60,000 bytes."""
    made = bytearray(f"## Accessibility: {sums(listing)}\n".encode("utf-8"))
    left_out = 0
    for piece in pieces(listing):
        data = piece.encode("utf-8", "replace")
        if left_out or len(made) + len(data) > MOST_BYTES - LAST_BYTES:
            left_out += 1
        else:
            made += data
    if left_out:
        made += f"\nLeft out, since a comment holds no more: {left_out}.\n".encode("utf-8")
    return bytes(made)


def pieces(listing: Listing) -> Iterator[str]:
    """A text for each page that couldn't be checked and each finding, the first of a section and of a rule with its heading."""
    for place, lost in enumerate(listing.lost):
        heading = "\n### Not checked\n\n" if place == 0 else ""
        yield f"{heading}- {code(lost_line(lost))}\n"
    for kind, entries in groups(listing):
        if kind in HEADINGS:
            yield from section(f"{HEADINGS[kind]} ({len(entries)})", entries)
    if listing.accepted:
        yield from section(f"Accepted ({len(listing.accepted)})", listing.accepted)
    for place, acceptance in enumerate(listing.unmatched):
        heading = "\n### Accepted, and nothing like it failed\n\n" if place == 0 else ""
        yield f"{heading}- {code(unmatched_line(acceptance))}\n"


def section(heading: str, entries: list[Entry]) -> Iterator[str]:
    """A text for each of these findings, rule by rule in the order in which the rules come."""
    by_rule: dict[tuple[str, str], list[Entry]] = {}
    for entry in entries:
        by_rule.setdefault((entry.rule.id, entry.why), []).append(entry)
    before = f"\n### {heading}\n"
    for same in by_rule.values():
        before += f"\n{rule_line(same[0])}\n\n"
        for entry in same:
            yield before + item(entry)
            before = ""


def rule_line(entry: Entry) -> str:
    """The rule, its criteria, what the reason means and what usually mends it."""
    title = f"[{entry.title}]({entry.rule.link})" if entry.rule.is_known else entry.title
    criteria = "".join(f", {one.number} {one.name}" for one in entry.rule.criteria)
    judged = f" Judged by {code(entry.judge)}." if entry.judge else ""
    return f"**{title}** ({entry.rule.id}{criteria}).{judged} {plain(' '.join(advice_of(entry)))}".rstrip()


def item(entry: Entry) -> str:
    """A finding as an item of a list, and beneath it what it merges."""
    tag = f"{code(entry.target.tag)} at " if entry.target.tag else ""
    accepted = f" {plain(accepted_line(entry.acceptance))}" if entry.acceptance else ""
    lines = [f"- {tag}{code(entry.target.path or entry.where)} on {code(entry.page.shown)}.{accepted}"]
    return "".join(f"{line}\n" for line in (*lines, *(f"  - {plain(merged)}" for merged in merged_of(entry))))


def plain(text: str) -> str:
    """A text in which nothing is markup or a link; GitHub, which looks for names in what is shown, finds none."""
    escaped = re.sub(r"([\\`*_{}\[\]()<>#+!|~&])", r"\\\1", shortened(one_line(text), LONGEST * 2))
    return escaped.replace("@", "@<!-- -->")


def code(text: str) -> str:
    """A text of the page as code, whatever stands in it."""
    shown = shortened(one_line(text), LONGEST)
    fence = "`" * (max(map(len, re.findall("`+", shown)), default=0) + 1)
    space = " " if shown.startswith("`") or shown.endswith("`") else ""
    return f"{fence}{space}{shown}{space}{fence}" if shown else ""
