"""SARIF 2.1.0, as code scanning services read it."""
from __future__ import annotations

import json
from typing import Any
from urllib.parse import quote

from silvervole.collect.ends import one_line
from silvervole.view.rules import Rule

from .listing import MENDED, NEW, STAYS, Entry, Listing
from .words import lines_of, lost_line, merged_of, unmatched_line

SCHEMA = "https://docs.oasis-open.org/sarif/sarif/v2.1.0/errata01/os/schemas/sarif-schema-2.1.0.json"
VERSION = "2.1.0"
# A result that is none of these is no failure, and has no level then.
KINDS = {"failed": "fail", "cantTell": "review", "passed": "pass"}
STATES = {NEW: "new", STAYS: "unchanged", MENDED: "absent"}


def write_sarif(listing: Listing) -> bytes:
    """The findings as a SARIF log of one run: what failed and what is to judge, and what is mended where audits were compared."""
    entries = [entry for entry in listing if entry.outcome != "passed"]
    rules = list({entry.rule.id: entry.rule for entry in entries}.values())
    places = {rule.id: place for place, rule in enumerate(rules)}
    driver = {"name": "Silvervole", "rules": [rule_of(rule) for rule in rules]}
    results = [result_of(entry, places[entry.rule.id]) for entry in entries]
    if listing.accepted:
        # SARIF wants this of all results of a run, or of none.
        results = [{**result, "suppressions": suppressions_of(entry)} for result, entry in zip(results, entries)]
    run: dict[str, Any] = {"tool": {"driver": driver}, "columnKind": "unicodeCodePoints", "results": results}
    notes = [("error", lost_line(lost)) for lost in listing.lost] + [("warning", unmatched_line(acceptance)) for acceptance in listing.unmatched]
    if notes:
        run["invocations"] = [{"executionSuccessful": not listing.lost, "toolExecutionNotifications": [
            {"level": level, "message": {"text": text}} for level, text in notes]}]
    log = {"$schema": SCHEMA, "version": VERSION, "runs": [run]}
    return json.dumps(log, ensure_ascii=False, indent=1).encode("utf-8", "replace") + b"\n"


def rule_of(rule: Rule) -> dict[str, Any]:
    """What is said of a rule once."""
    made: dict[str, Any] = {"id": rule.id, "shortDescription": {"text": rule.name or f"Rule {rule.id}"}}
    if rule.is_known:
        criteria = ", ".join(f"{one.number} {one.name} (level {one.level})" for one in rule.criteria)
        made |= {"fullDescription": {"text": f"{rule.name}. WCAG 2.2: {criteria}." if criteria else f"{rule.name}."},
                 "helpUri": rule.link, "help": {"text": f"The published rule: {rule.link}"}}
    tags = ["accessibility", *(f"WCAG 2.2 {one.number}" for one in rule.criteria)]
    return {**made, "defaultConfiguration": {"level": "error"}, "properties": {"tags": tags}}


def result_of(entry: Entry, place: int) -> dict[str, Any]:
    """What is said of a finding."""
    kind = KINDS[entry.outcome]
    made: dict[str, Any] = {
        "ruleId": entry.rule.id, "ruleIndex": place, "kind": kind, "level": "error" if kind == "fail" else "none",
        "message": {"text": "\n".join([*([] if entry.advice else [one_line(entry.why)]), *lines_of(entry), *merged_of(entry)])},
        "locations": [location_of(entry)], "partialFingerprints": {"silvervole/v1": entry.fingerprint},
        "properties": properties_of(entry)}
    if entry.change:
        made["baselineState"] = STATES[entry.change]
    return made


def suppressions_of(entry: Entry) -> list[dict[str, str]]:
    """What the team accepts of a finding; nothing where it counts."""
    accepted = entry.acceptance
    if accepted is None or not entry.is_accepted:
        return []
    return [{"kind": "external", "status": "accepted", "justification": f"{accepted.reason} ({accepted.who}, until {accepted.until})"}]


def location_of(entry: Entry) -> dict[str, Any]:
    """The file and line of a finding, and its element."""
    made: dict[str, Any] = {"physicalLocation": {"artifactLocation": {"uri": quote(entry.file)}, "region": {"startLine": entry.line}}}
    if entry.target.path:
        made["logicalLocations"] = [{"fullyQualifiedName": one_line(f"{entry.page.address} {entry.target.path}"), "kind": "element"}]
    return made


def properties_of(entry: Entry) -> dict[str, Any]:
    """What SARIF has no members for."""
    made: dict[str, Any] = {"outcome": entry.outcome, "reason": entry.reason, "address": entry.page.address, "node": entry.target.number,
                            "path": entry.target.path, "startTag": entry.target.tag, "judgedBy": entry.judge}
    return {name: value for name, value in made.items() if value != ""}
