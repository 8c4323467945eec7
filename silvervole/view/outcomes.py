"""Reads the desk's reply to `outcomes`: the rows of a text report, with the evidence, the automatic outcome and the judge of each."""
from __future__ import annotations

import hashlib
import json
import re
from typing import Any, Callable, Mapping

from silvervole.check_form import is_number, is_text
from silvervole.collect.ends import End, Stop

from .report import OUTCOMES, Finding, Report

GREATEST_REVISION = 9_223_372_036_854_775_807
RULE = re.compile(r"[0-9a-z]{6}")
REASON = re.compile(r"[a-z][a-z0-9-]*")
DIGEST = re.compile(r"[0-9a-f]{64}")


class Fault(Exception):
    """Why some bytes are no reply to `outcomes`."""


def has_form(form: re.Pattern[str]) -> Callable[[object], bool]:
    """A test whether a value is a text of this form."""
    return lambda value: isinstance(value, str) and form.fullmatch(value) is not None


def is_outcome(value: object) -> bool:
    """Whether a value is the word of an outcome."""
    return value in OUTCOMES


def is_list(value: object) -> bool:
    """Whether a value is a list."""
    return isinstance(value, list)


def is_revision(value: object) -> bool:
    """Whether a value is the revision of a page that is kept."""
    return type(value) is int and 1 <= value <= GREATEST_REVISION


def are_rules(value: object) -> bool:
    """Whether a value is a list of ids of rules."""
    return isinstance(value, list) and all(map(has_form(RULE), value))


# The members of a reply and of an outcome in it, with the test that each has to pass. Others are passed over.
REPLY: Mapping[str, Callable[[object], bool]] = {"inapplicable": are_rules, "outcomes": is_list, "rev": is_revision}
OUTCOME: Mapping[str, Callable[[object], bool]] = {
    "automatic": is_outcome, "by": is_text, "digest": has_form(DIGEST), "evidence": is_text, "node": is_number,
    "outcome": is_outcome, "reason": has_form(REASON), "rule": has_form(RULE)}


def is_object(data: bytes) -> bool:
    """Whether the bytes begin as a JSON object does; no text report does."""
    return data.lstrip(b"\t\n\r ").startswith(b"{")


def read_outcomes(data: bytes, path: str) -> Report:
    """The report that the bytes of a reply hold, all of it; a Stop with the status INPUT that says what is wrong with them."""
    try:
        return report_of(read_object(data))
    except Fault as fault:
        raise Stop(End.INPUT, f"{path} is no reply of the desk to outcomes: {fault}") from None


def read_object(data: bytes) -> dict[str, Any]:
    """The JSON object that the bytes are; a Fault where they are none."""
    try:
        given = json.loads(data.decode("utf-8"))
    except UnicodeDecodeError:
        raise Fault("it isn't in UTF-8") from None
    except ValueError as error:
        raise Fault(f"it is cut or damaged, and no JSON: {error}") from None
    except RecursionError:
        raise Fault("its JSON is nested too deep") from None
    if not isinstance(given, dict):
        raise Fault("it is no JSON object")
    return given


def report_of(reply: dict[str, Any]) -> Report:
    """The report that a reply holds; a Fault where it is a refusal, of another form, or at odds with itself."""
    if is_text(reply.get("refused")):
        raise Fault(f"it says that the desk refused what was asked: {reply['refused']}")
    check_members(reply, REPLY, "it")
    findings = tuple(finding_of(given, f"its outcome {place}") for place, given in enumerate(reply["outcomes"], 1))
    check_rules(findings, reply["inapplicable"])
    return Report(None, findings, tuple(reply["inapplicable"]), reply["rev"])


def finding_of(given: object, what: str) -> Finding:
    """The finding that an outcome of a reply is; a Fault where it is of another form."""
    outcome = check_members(given, OUTCOME, what)
    if hashlib.sha256(outcome["evidence"].encode("utf-8")).hexdigest() != outcome["digest"]:
        raise Fault(f"{what} has a digest that isn't that of its evidence")
    return Finding(outcome["rule"], outcome["node"], outcome["outcome"], outcome["reason"], outcome["by"],
                   outcome["automatic"], outcome["evidence"])


def check_members(given: object, members: Mapping[str, Callable[[object], bool]], what: str) -> dict[str, Any]:
    """The object that is given; a Fault where it is none, lacks a member, or has one of another form."""
    if not isinstance(given, dict):
        raise Fault(f"{what} is no JSON object")
    for name, is_good in members.items():
        if name not in given:
            raise Fault(f"{what} has no member {name}")
        if not is_good(given[name]):
            raise Fault(f"{what} has a member {name} of another form")
    return given


def check_rules(findings: tuple[Finding, ...], inapplicable: list[str]) -> None:
    """A Fault where a rule has two outcomes on a node, or one although it is said to have none."""
    seen: set[tuple[str, int]] = set()
    without = set(inapplicable)
    for finding in findings:
        if (finding.rule, finding.node) in seen:
            raise Fault(f"it has two outcomes of the rule {finding.rule} on node {finding.node}")
        if finding.rule in without:
            raise Fault(f"it has an outcome of the rule {finding.rule}, and says that this rule has none")
        seen.add((finding.rule, finding.node))
