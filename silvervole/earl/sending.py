"""Hands judgements to the desk: nothing else here knows by which request, or in which form.

The desk takes all of a request or none of it, and what it is sent again adds nothing. So whoever was interrupted may send all of them again.
"""
from __future__ import annotations

import json
from typing import Any, Iterator, Sequence

from silvervole.collect.ends import End, Stop
from silvervole.desk.asking import Desk, object_of
from silvervole.send.kept import Target
from silvervole.view.report import Finding

from .mapping import Claim
from .taking import digest_of

MOST_NOTE = 2_000
# What the desk takes at once is 10,000 assertions; and a body of 8,388,608 bytes, of which some are left for what stands around them.
MOST_AT_ONCE, MOST_BYTES = 10_000, 8_000_000
Judged = tuple[Claim, Finding]


def note_of(claim: Claim) -> str:
    """A claim's note, its front where it is longer than the desk takes it."""
    return claim.note.encode("utf-8")[:MOST_NOTE].decode("utf-8", "ignore")


def send(desk: Desk, target: Target, address: str, judgements: Sequence[Judged], hand: str | None) -> Iterator[tuple[int, int]]:
    """Sends them, as many at once as the desk takes; says each time how many were sent, and how many of those are new there."""
    done = 0
    for some in portions([assertion(address, claim, finding, hand) for claim, finding in judgements]):
        try:
            told = object_of(desk.ask("POST", f"{target.path}/earl", document(some, None)))
        except Stop as stop:
            raise stopped(stop, done, len(judgements)) from None
        added = told.get("added")
        if type(added) is not int:
            raise Stop(End.DESK, "the reply is no desk's")
        done += len(some)
        yield len(some), added


def portions(assertions: Sequence[dict[str, Any]]) -> Iterator[list[dict[str, Any]]]:
    """Assertions in their order, as many together as the desk takes."""
    some: list[dict[str, Any]] = []
    size = 0
    for one in assertions:
        length = len(json.dumps(one, ensure_ascii=False).encode("utf-8")) + 1
        if len(some) == MOST_AT_ONCE or (some and size + length > MOST_BYTES):
            yield some
            some, size = [], 0
        some.append(one)
        size += length
    if some:
        yield some


def stopped(stop: Stop, done: int, count: int) -> Stop:
    """The end of a run amid judgements, of which so many were sent."""
    return Stop(stop.end, f"{stop.line}; {done} of {count} judgements were sent before" if done else stop.line)


def written(address: str, judgements: Sequence[Judged], hand: str | None) -> bytes:
    """Judgements as EARL in the desk's form: each with the digest of the evidence that was judged, and the note behind it."""
    return document([assertion(address, claim, finding, hand) for claim, finding in judgements], 1)


def document(assertions: Sequence[dict[str, Any]], indent: int | None) -> bytes:
    """EARL of these assertions."""
    whole = {"@context": {"earl": "http://www.w3.org/ns/earl#"}, "@graph": assertions}
    return f"{json.dumps(whole, ensure_ascii=False, indent=indent)}\n".encode("utf-8")


def assertion(address: str, claim: Claim, finding: Finding, hand: str | None) -> dict[str, Any]:
    """One judgement as an assertion."""
    return {
        "@type": "earl:Assertion",
        **({"earl:assertedBy": {"@id": f"urn:act-desk:user:{hand}"}} if hand is not None else {}),
        "earl:subject": {"@id": address, "@type": "earl:TestSubject"},
        "earl:test": {"@id": f"urn:act-rule:{claim.rule}", "@type": "earl:TestCase"},
        "earl:mode": {"@id": f"earl:{claim.mode}"},
        "earl:result": {"@type": "earl:TestResult", "earl:outcome": {"@id": f"earl:{claim.verdict}"}, "earl:pointer": f"node {claim.node}",
                        "earl:info": " ".join(filter(None, (digest_of(finding), note_of(claim))))},
    }
