"""Which claims are added to what the desk keeps, which it knows, and which don't hold there."""
from __future__ import annotations

import dataclasses
import enum
import hashlib
from dataclasses import dataclass
from typing import Iterable

from silvervole.view.report import Finding, Report

from .assertions import is_earlier
from .mapping import Claim, Skipped

Key = tuple[str, int]


class Fate(enum.Enum):
    """What becomes of a claim, or of an assertion that is none."""

    ADDED = "added"
    KNOWN = "known"
    SKIPPED = "skipped"


@dataclass(frozen=True)
class Taken:
    """A claim, the finding that it is about where there is one, what becomes of it, and why where it is skipped."""

    fate: Fate
    claim: Claim
    finding: Finding | None
    why: str = ""


def digest_of(finding: Finding) -> str:
    """The digest of a finding's evidence."""
    return hashlib.sha256((finding.evidence or "").encode("utf-8")).hexdigest()


def refusal(claim: Claim, finding: Finding | None) -> str:
    """Why a claim doesn't hold of what is kept; empty where it does."""
    if finding is None:
        return "the rule has no outcome there"
    if finding.automatic != "cantTell":
        return f"the rule tells by itself: {finding.automatic}"
    if claim.digest and claim.digest != digest_of(finding):
        return "its digest is of other evidence than the kept page has"
    return ""


def take(given: Iterable[Claim | Skipped], report: Report, hand: str | None) -> list[Taken | Skipped]:
    """What becomes of each, where this person sends them. Of claims on one finding the last counts: that of the latest date, else of the last place."""
    all_given = list(given)
    rows = {(finding.rule, finding.node): finding for finding in report.findings}
    last: dict[Key, Claim] = {}
    for claim in all_given:
        if isinstance(claim, Claim) and not refusal(claim, rows.get((claim.rule, claim.node))):
            before = last.get((claim.rule, claim.node))
            if before is None or not is_earlier(claim.date, before.date):
                last[claim.rule, claim.node] = claim
    return [taken(one, rows.get((one.rule, one.node)), last.get((one.rule, one.node)), hand) if isinstance(one, Claim) else one for one in all_given]


def settled(given: Iterable[Taken], report: Report, hand: str | None) -> list[Taken]:
    """What became of claims that were sent, of which the desk didn't add all, by the outcomes that it has now."""
    rows = {(finding.rule, finding.node): finding for finding in report.findings}
    return [fated(one, rows.get((one.claim.rule, one.claim.node)), hand) for one in given]


def fated(one: Taken, now: Finding | None, hand: str | None) -> Taken:
    """What became of a claim; it is known where it stood at the desk before, and doesn't count."""
    digest = digest_of(one.finding) if one.finding is not None else ""
    why = refusal(dataclasses.replace(one.claim, digest=digest), now)
    if now is None or why:
        return dataclasses.replace(one, fate=Fate.SKIPPED, why=why)
    counts = now.outcome == one.claim.verdict and now.judge and hand in (None, now.judge)
    return one if counts else dataclasses.replace(one, fate=Fate.KNOWN, why="a later judgement counts")


def taken(claim: Claim, finding: Finding | None, last: Claim | None, hand: str | None) -> Taken:
    """What becomes of a claim; `last` is the one on its finding that counts."""
    why = refusal(claim, finding)
    if finding is None or why:
        return Taken(Fate.SKIPPED, claim, finding, why)
    if last is not None and last is not claim:
        if last.verdict == claim.verdict:
            return Taken(Fate.KNOWN, claim, finding)
        return Taken(Fate.SKIPPED, claim, finding, f"a later assertion says {last.verdict} of the same")
    known = hand is not None and finding.judge == hand and finding.outcome == claim.verdict
    return Taken(Fate.KNOWN if known else Fate.ADDED, claim, finding)
