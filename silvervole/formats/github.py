"""GitHub's annotations: workflow commands, which a step prints."""
from __future__ import annotations

from silvervole.collect.ends import one_line

from .listing import MENDED, STAYS, Entry, Listing
from .words import lines_of, lost_line, merged_of, unmatched_line


def write_github(listing: Listing) -> bytes:
    """A line for each finding that failed or is to judge, what fails the pipeline first: GitHub shows ten of a kind for each step."""
    lines = [f"::error title=Not checked::{data(lost_line(lost))}" for lost in listing.lost]
    lines += [annotation(entry) for entry in listing if entry.outcome != "passed" and entry.change != MENDED]
    lines += [f"::notice title=Accepted::{data(unmatched_line(acceptance))}" for acceptance in listing.unmatched]
    return "".join(f"{line}\n" for line in lines).encode("utf-8", "replace")


def annotation(entry: Entry) -> str:
    """The command that annotates a file, or where the finding has none of the team's files, the run."""
    words = [f"title={property_of(f'{entry.state_of_things}: {entry.title}' if not entry.is_accepted else f'accepted: {entry.title}')}"]
    if entry.page.file or entry.page.snapshot:
        words = [f"file={property_of(entry.file)}", f"line={entry.line}", *words]
    return f"::{kind_of(entry)} {','.join(words)}::{data(chr(10).join([*lines_of(entry), *merged_of(entry)]))}"


def kind_of(entry: Entry) -> str:
    """What fails the pipeline is an error, what failed before a warning, and all else a notice."""
    if entry.fails:
        return "error"
    return "warning" if entry.outcome == "failed" and entry.change == STAYS and not entry.is_accepted else "notice"


def data(text: str) -> str:
    """A message, as a workflow command spells it."""
    return text.replace("%", "%25").replace("\r", "%0D").replace("\n", "%0A")


def property_of(text: str) -> str:
    """The value of a property, as a workflow command spells it."""
    return data(one_line(text)).replace(":", "%3A").replace(",", "%2C")
