"""SARIF 2.1.0: read by Debian's classes, which were made from its schema, and held against the rules of its text."""
from __future__ import annotations

import inspect
import json
import re
from typing import Any

import attr
import sarif_om

from silvervole.formats.sarif import write_sarif

from .samples import SHOP, listing_of, shop

# The class of what a member holds, where it holds objects or lists of them.
CLASSES = {
    "runs": "Run", "tool": "Tool", "driver": "ToolComponent", "rules": "ReportingDescriptor", "results": "Result", "message": "Message",
    "shortDescription": "MultiformatMessageString", "fullDescription": "MultiformatMessageString", "help": "MultiformatMessageString",
    "defaultConfiguration": "ReportingConfiguration", "locations": "Location", "physicalLocation": "PhysicalLocation",
    "artifactLocation": "ArtifactLocation", "region": "Region", "logicalLocations": "LogicalLocation", "suppressions": "Suppression",
    "invocations": "Invocation", "toolExecutionNotifications": "Notification"}
# Bags of members that SARIF leaves to whoever writes it.
BAGS = ("properties", "partialFingerprints")


def read(name: str, given: Any) -> Any:
    """The object of a class of the schema; an error where a member is lacking, or is none of the schema's."""
    made = getattr(sarif_om, name)
    names = {field.metadata["schema_property_name"]: field.name for field in attr.fields(made)}
    members = {}
    for member, value in given.items():
        assert member in names, f"{name} has no member {member}"
        if member in CLASSES and member not in BAGS:
            value = [read(CLASSES[member], one) for one in value] if isinstance(value, list) else read(CLASSES[member], value)
        members[names[member]] = value
    return made(**members)


def test_every_member_is_of_the_schema() -> None:
    """The log is read whole, and each object has what the schema requires of it."""
    assert "schema_uri" in inspect.signature(sarif_om.SarifLog).parameters
    log = json.loads(write_sarif(listing_of(shop(), SHOP, file="shop.html")))
    found = read("SarifLog", log)
    assert (found.version, log["$schema"].rsplit("/", 1)[1]) == ("2.1.0", "sarif-schema-2.1.0.json")
    run = found.runs[0]
    assert run.tool.driver.name == "Silvervole"
    assert [(result.rule_id, result.kind, result.level) for result in run.results] == [
        ("c487ae", "fail", "error"), ("23a2a8", "fail", "error"), ("cf77f2", "fail", "error"), ("c4a8a4", "review", "none")]


def test_rules_of_its_text() -> None:
    """An index is that of the rule, a result that is no failure has no level, a place is a URI and a line from 1."""
    run = json.loads(write_sarif(listing_of(shop(), SHOP, file="a page.html")))["runs"][0]
    rules = run["tool"]["driver"]["rules"]
    assert len({rule["id"] for rule in rules}) == len(rules) == 4
    for result in run["results"]:
        assert rules[result["ruleIndex"]]["id"] == result["ruleId"]
        assert result["kind"] == "fail" or result["level"] == "none"
        place = result["locations"][0]["physicalLocation"]
        assert re.fullmatch(r"[A-Za-z0-9._~/%-]+", place["artifactLocation"]["uri"]) and place["region"]["startLine"] >= 1
    assert run["results"][0]["locations"][0]["physicalLocation"]["artifactLocation"]["uri"] == "a%20page.html"
    assert len({result["partialFingerprints"]["silvervole/v1"] for result in run["results"]}) == 4


def test_the_inputs_of_a_composite_are_no_results() -> None:
    """They stand in the message of the composite."""
    run = json.loads(write_sarif(listing_of(shop(), SHOP)))["runs"][0]
    composite = next(result for result in run["results"] if result["ruleId"] == "cf77f2")
    assert composite["message"]["text"].count("\nfailed: ") == 4
