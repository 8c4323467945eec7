"""GitLab's Code Quality report."""
from __future__ import annotations

import json
import os

from silvervole.collect.ends import one_line

from .fingerprints import hashed
from .listing import MENDED, STAYS, Entry, Listing, LostPage
from .source import from_here, path_of
from .words import accepted_line, advice_of, lost_line, merged_of


def write_gitlab(listing: Listing) -> bytes:
    """What failed and what is to judge. GitLab itself tells by the fingerprints what is new in a merge request."""
    entries = [entry for entry in listing if entry.outcome != "passed" and entry.change != MENDED]
    issues = [issue_of(entry) for entry in entries] + [lost_issue(lost) for lost in listing.lost]
    return json.dumps(issues, ensure_ascii=False, indent=1).encode("utf-8", "replace") + b"\n"


def issue_of(entry: Entry) -> dict[str, object]:
    """What is said of a finding."""
    accepted = [accepted_line(entry.acceptance)] if entry.is_accepted and entry.acceptance else []
    said = [f"{entry.title}: {entry.where}.", *accepted, *advice_of(entry), *merged_of(entry)]
    return {"description": one_line(" ".join(said)), "check_name": entry.rule.id, "fingerprint": entry.fingerprint,
            "severity": severity_of(entry), "location": {"path": entry.file, "lines": {"begin": entry.line}}}


def lost_issue(lost: LostPage) -> dict[str, object]:
    """What is said of a page that couldn't be checked."""
    return {"description": lost_line(lost), "check_name": "not-checked", "fingerprint": hashed("not checked", lost.name),
            "severity": "blocker", "location": {"path": from_here(lost.name) if os.path.exists(lost.name) else path_of(lost.name), "lines": {"begin": 1}}}


def severity_of(entry: Entry) -> str:
    """How bad it is, in GitLab's words: what fails the pipeline first, then what failed before too."""
    if entry.fails:
        return "critical"
    return "major" if entry.outcome == "failed" and entry.change == STAYS and not entry.is_accepted else "info"
