"""The implementation report: what the desk says of each case, as EARL in JSON-LD."""
from __future__ import annotations

import json
from typing import Any, Sequence

from silvervole import __version__
from silvervole.collect.ends import Stop
from silvervole.view.rules import RuleTable

from .table import Result

CONTEXT = {
    "@vocab": "http://www.w3.org/ns/earl#",
    "earl": "http://www.w3.org/ns/earl#",
    "dct": "http://purl.org/dc/terms/",
    "doap": "http://usefulinc.com/ns/doap#",
    "sch": "https://schema.org/",
    "title": "dct:title",
    "source": {"@id": "dct:source", "@type": "@id"},
    "name": "doap:name",
    "release": "doap:release",
    "revision": "doap:revision",
    "assertedBy": {"@type": "@id"},
    "mode": {"@type": "@id"},
    "outcome": {"@type": "@id"},
}
# The desk's own name in its reports of pages.
SOFTWARE = "urn:act-desk:software"
ASSERTOR = {
    "@id": SOFTWARE,
    "@type": ["Assertor", "Software", "doap:Project"],
    "name": "Silvervole",
    "release": {"@type": "doap:Version", "revision": __version__},
}


def report(results: Sequence[Result], table: RuleTable) -> bytes:
    """The report of all cases, one that couldn't be tried among them as untested."""
    graph = [ASSERTOR, *(assertion(result, table) for result in results)]
    return f"{json.dumps({'@context': CONTEXT, '@graph': graph}, indent=1, ensure_ascii=False)}\n".encode("utf-8")


def assertion(result: Result, table: RuleTable) -> dict[str, Any]:
    """What is asserted of a case: the page by its address as it was published, the rule by its own page."""
    case, outcome = result.case, result.outcome
    told = {"outcome": "earl:untested", "info": outcome.line} if isinstance(outcome, Stop) else {"outcome": f"earl:{outcome.actual}"}
    return {
        "@type": "Assertion",
        "assertedBy": SOFTWARE,
        "subject": {"@type": ["TestSubject", "sch:WebPage"], "source": case.address},
        "test": {"@id": table.rule(case.rule).link, "@type": "TestCase", "title": case.rule_name},
        "mode": "earl:automatic",
        "result": {"@type": "TestResult", **told},
    }
