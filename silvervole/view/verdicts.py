"""Reads the desk's reply to `verdicts`: what people judged of a page, one after another, with their notes."""
from __future__ import annotations

import re
from typing import Callable, Mapping

from silvervole.check_form import is_number, is_text
from silvervole.collect.ends import End, Stop

from .outcomes import DIGEST, Fault, check_members, has_form, is_list, is_outcome, is_revision, read_object
from .report import Report

NAME = re.compile(r"[a-z0-9._-]{1,64}")
# The id of a rule; empty where the desk's book hasn't the rule any more.
RULE = re.compile(r"([0-9a-z]{6})?")
WORDS = {"passed": "passed", "failed": "failed", "cantTell": "left open"}
# What was said of a finding, by its rule and node.
Said = Mapping[tuple[str, int], tuple[str, ...]]


def is_truth(value: object) -> bool:
    """Whether a value is true or false."""
    return isinstance(value, bool)


REPLY: Mapping[str, Callable[[object], bool]] = {"rev": is_revision, "verdicts": is_list}
VERDICT: Mapping[str, Callable[[object], bool]] = {
    "by": has_form(NAME), "counts": is_truth, "digest": has_form(DIGEST), "node": is_number, "note": is_text, "rule": has_form(RULE),
    "verdict": is_outcome}


def read_verdicts(data: bytes, path: str, report: Report) -> Said:
    """A line for each judgement of a reply, in its order; a Stop with the status INPUT where it is none, or of another revision than the report."""
    try:
        return said_in(data, report.revision)
    except Fault as fault:
        raise Stop(End.INPUT, f"{path} is no reply of the desk to verdicts: {fault}") from None


def said_in(data: bytes, revision: int | None) -> Said:
    """The lines by rule and node; a Fault where the reply is a refusal, of another form, or of another revision."""
    reply = read_object(data)
    if is_text(reply.get("refused")):
        raise Fault(f"it says that the desk refused what was asked: {reply['refused']}")
    check_members(reply, REPLY, "it")
    if revision not in (None, reply["rev"]):
        raise Fault(f"it is of revision {reply['rev']}, the outcomes of revision {revision}")
    made: dict[tuple[str, int], tuple[str, ...]] = {}
    for place, given in enumerate(reply["verdicts"], 1):
        verdict = check_members(given, VERDICT, f"its judgement {place}")
        key = verdict["rule"], verdict["node"]
        made[key] = (*made.get(key, ()), line_of(verdict["by"], verdict["verdict"], verdict["counts"], verdict["note"]))
    return made


def line_of(by: str, verdict: str, counts: bool, note: str) -> str:
    """What is said of a judgement: `Passed by bob: It says what stands below it.`"""
    said = f"{WORDS[verdict].capitalize()} by {by}{'' if counts else ', which counts no more'}"
    return f"{said}: {note}" if note else f"{said}."
