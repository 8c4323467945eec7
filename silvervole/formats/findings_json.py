"""The findings as JSON, with all that the HTML has; silvervole/data/findings.schema.json says its form."""
from __future__ import annotations

import json
from typing import Any

from silvervole.accepted.reading import Acceptance
from silvervole.view.findings import CriterionLine
from silvervole.view.page import Quote
from silvervole.view.pictures import Crop
from silvervole.view.rules import Criterion, Rule

from .listing import Entry, ListedPage, Listing

FORM = "silvervole-findings-1"


def write_json(listing: Listing) -> bytes:
    """The pages, the findings that aren't accepted, and apart from them those that are."""
    places = {id(page.about): (place, page) for place, page in enumerate(listing.pages)}

    def told(entries: list[Entry]) -> list[dict[str, Any]]:
        return [finding_of(entry, *places[id(entry.page)]) for entry in entries]

    made = {"form": FORM, "compared": listing.compared, "fails": listing.fails,
            "pages": [page_of(page) for page in listing.pages],
            "findings": told(listing.counting), "accepted": told(listing.accepted),
            "unmatched": [acceptance_of(acceptance) for acceptance in listing.unmatched],
            "lost": [{"name": lost.name, "why": lost.why} for lost in listing.lost]}
    return json.dumps(made, ensure_ascii=False, indent=1).encode("utf-8", "replace") + b"\n"


def page_of(page: ListedPage) -> dict[str, Any]:
    """What is said of a page as a whole; null where it isn't known."""
    about = page.about
    criteria = [line_of(line) for line in page.view.criteria] if page.view else None
    return {"name": about.name, "address": about.address, "title": quote_of(about.title), "state": about.state or None,
            "revision": about.revision, "nodes": about.nodes, "file": about.file or None, "snapshot": about.snapshot or None,
            "seconds": about.seconds, "note": about.note or None, "counts": page.view.counts if page.view else None, "criteria": criteria,
            "nothing_to_judge": [criterion_of(one) for one in page.view.quiet] if page.view else None,
            "inapplicable": [rule_of(rule) for rule in page.inapplicable]}


def line_of(line: CriterionLine) -> dict[str, Any]:
    """How many findings count under a criterion; null stands for rules under none."""
    return {"criterion": criterion_of(line.criterion) if line.criterion else None, "counts": line.counts}


def finding_of(entry: Entry, place: int, page: ListedPage) -> dict[str, Any]:
    """What is said of a finding on the page with this place in the list; null where it isn't known."""
    target = entry.target
    return {"page": place, "address": entry.page.address, "fingerprint": entry.fingerprint, "fails": entry.fails,
            "change": entry.change or None, "rule": rule_of(entry.rule), "outcome": entry.outcome, "reason": entry.reason or None,
            "judged_by": entry.judge or None, "automatic": entry.automatic or None,
            "means": entry.advice.means if entry.advice else None, "mends": entry.advice.mends if entry.advice else None,
            "node": target.number, "kind": target.kind or None, "whole_page": target.is_root, "path": target.path or None,
            "start_tag": target.tag or None, "label": entry.place.label or None, "text": quote_of(target.text),
            "heading_above": {**quote_of(target.heading), "tag": target.heading_tag} if target.heading.text else None,
            "evidence": quote_of(target.evidence) if target.evidence is not None else None, "box": box_of(target.crop, page),
            "file": entry.file, "line": entry.line, "acceptance": acceptance_of(entry.acceptance) if entry.acceptance else None,
            "beneath": [finding_of(merged, place, page) for merged in entry.beneath]}


def rule_of(rule: Rule) -> dict[str, Any]:
    """A rule with its criteria."""
    return {"id": rule.id, "name": rule.name or None, "link": rule.link or None, "criteria": [criterion_of(one) for one in rule.criteria]}


def criterion_of(criterion: Criterion) -> dict[str, str]:
    """A success criterion."""
    return {"number": criterion.number, "name": criterion.name, "level": criterion.level, "link": criterion.link}


def quote_of(quote: Quote) -> dict[str, str | None]:
    """A text of the page, and its language where that is known."""
    return {"text": quote.text, "language": quote.language or None}


def box_of(crop: Crop | None, page: ListedPage) -> dict[str, int] | None:
    """The box that is outlined in the page's picture, in pixels, and of which node it is; null where none is."""
    if crop is None or page.picture is None:
        return None
    x, y, width, height = page.picture.boxes[crop.of.number]
    return {"node": crop.of.number, "x": x, "y": y, "width": width, "height": height}


def acceptance_of(acceptance: Acceptance) -> dict[str, object]:
    """What a team accepts."""
    return {"rule": acceptance.rule, "place": acceptance.place, "reason": acceptance.reason, "who": acceptance.who,
            "until": acceptance.until.isoformat(), "lasts": acceptance.lasts}
