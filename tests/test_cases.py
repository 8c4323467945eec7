"""`silvervole cases` without a browser: lists, grades, the table, the report as rdflib reads it, and the cases of the repository."""
from __future__ import annotations

import json
import pathlib
import re
from collections import Counter
from typing import Any

import pytest

from silvervole import __version__
from silvervole.cases.command import status
from silvervole.cases.earl import report
from silvervole.cases.judging import MOST_AT_ONCE, MOST_BYTES, Grade, Graded, graded, judged, list_of, lists
from silvervole.cases.reading import EXPECTED, Case, folder_of, page_of, read_cases
from silvervole.cases.table import Result, exceptions, rows, table
from silvervole.collect.ends import End, Stop
from silvervole.view.report import read_report

from .samples import ROOT, SHOP, TABLE, shop
from .standin import desk, silvervole

CASES = ROOT / "examples" / "cases"
LIST = CASES / "testcases.json"
ORDER = list(TABLE.rules)
GIVEN = {"ruleId": "97a4e1", "ruleName": "Button has a `name`", "testcaseId": "c1", "testcaseTitle": "A button", "expected": "passed",
         "url": "https://cases.example/a.html", "relativePath": "testcases/97a4e1/a.html", "more": [1]}


def case(rule: str, expected: str, name: str = "c1") -> Case:
    """A case of a rule."""
    return Case(name, f"Title of {name}", rule, TABLE.rule(rule).name, expected, f"https://cases.example/{name}.html", f"{rule}/{name}.html")


def listed(*cases: Any) -> bytes:
    """A list of cases."""
    return json.dumps({"count": len(cases), "testcases": cases}).encode("utf-8")


def test_read() -> None:
    """A case is read by its members, whatever else stands there."""
    assert read_cases(listed(GIVEN), "list") == (
        Case("c1", "A button", "97a4e1", "Button has a `name`", "passed", "https://cases.example/a.html", "testcases/97a4e1/a.html"),)


@pytest.mark.parametrize("data, why", [
    (b"\xff", "isn't JSON"), (b"[1", "isn't JSON"), (b"[]", "no object"), (b"{}", "no object"), (b'{"testcases":{}}', "no object"), (listed(), "at least one"),
    (listed(GIVEN, 1), "case 2: it is no object"), (listed(GIVEN, GIVEN, {**GIVEN, "ruleId": None}), "case 3: ruleId is no text"),
    (listed({**GIVEN, "expected": "Passed"}), "case 1: expected is none of passed, failed, inapplicable"),
    (listed({**GIVEN, "url": "file:///a.html"}), "url is no address"), (listed({**GIVEN, "relativePath": "../a.html"}), "leads out"),
    (listed({**GIVEN, "relativePath": "/a.html"}), "leads out"), (listed({**GIVEN, "relativePath": "https://other.example/"}), "leads out")])
def test_refused(data: bytes, why: str) -> None:
    """What is no list is refused, with the place."""
    with pytest.raises(Stop) as stopped:
        read_cases(data, "list")
    assert stopped.value.end is End.INPUT and stopped.value.line.startswith("list is no list of test cases: ") and why in stopped.value.line


@pytest.mark.parametrize("place, folder, page", [
    ("lists/testcases.json", "lists", "lists/97a4e1/c1.html"), ("testcases.json", ".", "./97a4e1/c1.html"), ("-", ".", "./97a4e1/c1.html"),
    ("https://rules.example/act/testcases.json", "https://rules.example/act/", "https://rules.example/act/97a4e1/c1.html"),
    ("", "https://rules.example/act", "https://rules.example/act/97a4e1/c1.html"), ("", "mirror", "mirror/97a4e1/c1.html")])
def test_places(place: str, folder: str, page: str) -> None:
    """A page is opened below the place that is named, or else below that of the list."""
    assert (folder_of(place) if place else folder) == folder
    assert page_of(case("97a4e1", "passed"), folder) == page


# The rule, what is expected, and what the shop's report makes of it: two links, of which one failed, among others.
GRADES = [("c487ae", "failed", "failed", Grade.CORRECT), ("c487ae", "passed", "failed", Grade.WRONG), ("c487ae", "inapplicable", "failed", Grade.WRONG),
          ("c4a8a4", "passed", "cantTell", Grade.UNTOLD), ("c4a8a4", "inapplicable", "cantTell", Grade.UNTOLD), ("2779a5", "passed", "passed", Grade.CORRECT),
          ("b5c3f8", "inapplicable", "inapplicable", Grade.CORRECT), ("b5c3f8", "passed", "inapplicable", Grade.WRONG),
          ("cf77f2", "failed", "failed", Grade.CORRECT)]


@pytest.mark.parametrize("rule, expected, actual, grade", GRADES)
def test_grades(rule: str, expected: str, actual: str, grade: Grade) -> None:
    """The worst outcome of a rule counts; what a person has to judge is untold, whatever is expected."""
    assert graded(case(rule, expected), read_report(SHOP.encode("utf-8"), "shop")) == Graded(actual, grade)


def test_a_rule_that_the_program_has_not() -> None:
    """It is no grade."""
    with pytest.raises(Stop) as stopped:
        graded(case("97a4e1", "inapplicable"), read_report(SHOP.encode("utf-8"), "shop"))
    assert stopped.value.end is End.PROGRAM


def test_judged(tmp_path: pathlib.Path, monkeypatch: pytest.MonkeyPatch) -> None:
    """Each case is judged by its page's audit; one that the desk refuses is a Stop in its place."""
    snapshot = json.dumps(shop()).encode("utf-8")
    cases = [(case(rule, expected), snapshot) for rule, expected, *_ in GRADES]
    monkeypatch.setenv("SILVERVOLE_PROGRAM", desk(tmp_path)["SILVERVOLE_PROGRAM"])
    assert judged(cases) == [Graded(actual, grade) for *_, actual, grade in GRADES] and len(cases) <= MOST_AT_ONCE
    desk(tmp_path, report="", status=5, says="snapshot fault 4 Tree 1 Empty")
    refused = judged(cases[:1])[0]
    assert isinstance(refused, Stop) and refused.end is End.FAULT_SNAPSHOT and "no node" in refused.line


def test_judged_as_a_list(tmp_path: pathlib.Path, monkeypatch: pytest.MonkeyPatch) -> None:
    """The table that the desk writes of a list has the outcome of each case; one that is of other cases is none."""
    snapshot = json.dumps(shop()).encode("utf-8")
    cases = [(case(rule, expected), snapshot) for rule, expected, *_ in GRADES]
    lines = [f"case c{place} {rule} expected {expected} actual {actual} {grade.value}" for place, (rule, expected, actual, grade) in enumerate(GRADES, 1)]
    lines[0] = "case c1 c487ae expected failed actual inapplicable wrong"
    monkeypatch.setenv("SILVERVOLE_PROGRAM", desk(tmp_path, report="\n".join([*lines, "total cases 9"]))["SILVERVOLE_PROGRAM"])
    assert judged(cases) == [Graded("inapplicable", Grade.WRONG), *(Graded(actual, grade) for *_, actual, grade in GRADES[1:])]
    refused = judged(cases[1:])
    assert len(refused) == len(cases) - 1 and all(isinstance(outcome, Stop) for outcome in refused)


def test_lists() -> None:
    """A list has at most 64 cases, and no more bytes than the desk takes; it is JSON with each case in its place."""
    assert [len(some) for some in lists([(case("97a4e1", "passed"), b"{}")] * (MOST_AT_ONCE + 1))] == [MOST_AT_ONCE, 1]
    large = [(case("97a4e1", "passed"), b'{"url":"%s"}' % (b"a" * (MOST_BYTES // 3)))] * 7
    assert [len(some) for some in lists(large)] == [2, 2, 2, 1] and all(len(list_of(some)) <= MOST_BYTES for some in lists(large))
    assert json.loads(list_of([(case("97a4e1", "passed"), b'{"url":"a"}'), (case("c487ae", "failed"), b"1\n")])) == {"cases": [
        {"id": "c1", "rule": "97a4e1", "expected": "passed", "snapshot": {"url": "a"}}, {"id": "c2", "rule": "c487ae", "expected": "failed", "snapshot": 1}]}


def some_results() -> list[Result]:
    """Cases of each grade, of a page that isn't HTML, and of one that doesn't load."""
    return [Result(case("c4a8a4", "passed", "t1"), Graded("cantTell", Grade.UNTOLD)), Result(case("c4a8a4", "inapplicable", "t2"), Graded("inapplicable", Grade.CORRECT)),
            Result(case("2779a5", "passed", "p1"), Graded("passed", Grade.CORRECT)), Result(case("2779a5", "failed", "p2"), Graded("failed", Grade.CORRECT)),
            Result(case("2779a5", "inapplicable", "p3"), Stop(End.NOT_HTML, "p3.svg isn't an HTML page")),
            Result(case("97a4e1", "passed", "b1"), Graded("failed", Grade.WRONG)), Result(case("97a4e1", "failed", "b2"), Graded("cantTell", Grade.UNTOLD)),
            Result(case("c487ae", "passed", "l1"), Stop(End.LOAD, "the page doesn't load"))]


def test_table() -> None:
    """A row for each rule in the order of the rules, whatever the list's, and the sums; a rule with a wrong case is inconsistent though one is untold."""
    assert [(row.rule, row.cases, row.correct, row.untold, row.wrong, row.not_tried, row.result) for row in rows(some_results(), ORDER)] == [
        ("2779a5", 2, 2, 0, 0, 1, "consistent"), ("c4a8a4", 2, 1, 1, 0, 0, "partial"), ("97a4e1", 2, 0, 1, 1, 0, "inconsistent"), ("c487ae", 0, 0, 0, 0, 1, "-")]
    lines = list(table(some_results(), ORDER))
    assert lines[0].split() == ["rule", "cases", "correct", "untold", "wrong", "not", "tried", "result", "name"]
    assert lines[1] == "2779a5      2        2       0      0          1  consistent    HTML page has non-empty title"
    assert lines[-1].split("  ")[-1] == "4 rules: 1 consistent, 1 partial, 1 inconsistent" and lines[-1].split()[:6] == ["total", "6", "3", "2", "1", "2"]


def test_exceptions() -> None:
    """What isn't correct is named; a page that couldn't be tried for another reason is told on standard error."""
    assert list(exceptions(some_results())) == [
        "untold: c4a8a4 t1: expected passed, a person has to judge: Title of t1 (c4a8a4/t1.html)",
        "not HTML: 2779a5 p3: p3.svg isn't an HTML page",
        "wrong: 97a4e1 b1: expected passed, found failed: Title of b1 (97a4e1/b1.html)",
        "untold: 97a4e1 b2: expected failed, a person has to judge: Title of b2 (97a4e1/b2.html)"]


def test_status() -> None:
    """0 without a wrong grade, 1 with one, else that of a page that couldn't be tried; one that isn't HTML is none."""
    results = some_results()
    assert [status(results[:5]), status(results[:7]), status(results)] == [End.WRITTEN, End.FAILED, End.LOAD]


def test_report() -> None:
    """The report is read as RDF: an assertor with name and version, and an assertion for each case, as the table counts them."""
    rdflib = pytest.importorskip("rdflib", reason="Python's rdflib isn't there (on Debian: apt-get install python3-rdflib)")
    results = some_results()
    earl, doap = rdflib.Namespace("http://www.w3.org/ns/earl#"), rdflib.Namespace("http://usefulinc.com/ns/doap#")
    graph = rdflib.Graph().parse(data=report(results, TABLE), format="json-ld")
    assertions = list(graph.subjects(rdflib.RDF.type, earl.Assertion))
    source, title = rdflib.DCTERMS.source, rdflib.DCTERMS.title
    said = {(str(graph.value(graph.value(one, earl.subject), source)), str(graph.value(one, earl.test)).split("/")[-2],
             str(graph.value(graph.value(one, earl.test), title)), str(graph.value(graph.value(one, earl.result), earl.outcome)).partition("#")[2])
            for one in assertions}
    assert len(assertions) == len(said) == len(results)
    assert said == {(one.case.address, one.case.rule, one.case.rule_name, one.outcome.actual if isinstance(one.outcome, Graded) else "untested")
                    for one in results}
    assert {graph.value(one, earl.mode) for one in assertions} == {earl.automatic}
    assertor, = {graph.value(one, earl.assertedBy) for one in assertions}
    assert (assertor, rdflib.RDF.type, earl.Assertor) in graph and str(graph.value(assertor, doap.name)) == "Silvervole"
    assert str(graph.value(graph.value(assertor, doap.release), doap.revision)) == __version__
    counted = Counter(outcome for *_, outcome in said)
    found = rows(results, ORDER)
    assert counted["untested"] == sum(row.not_tried for row in found) and counted["cantTell"] == sum(row.untold for row in found)
    assert sum(counted.values()) == sum(row.cases + row.not_tried for row in found)


def test_words(tmp_path: pathlib.Path) -> None:
    """Words that are refused before a browser starts."""
    for words, end, says in (((), End.USAGE, "LIST"), ((LIST, "--rule", "zzzzzz"), End.USAGE, "no rule in the book of thirty"),
                             ((LIST, "--rule", "5b7ae0"), End.USAGE, "no rule in the book of thirty"),
                             ((LIST, "--cookie", "a=b"), End.USAGE, "nowhere to go"), ((tmp_path / "none",), End.INPUT, "can't be read"),
                             (("http://127.0.0.1:9/testcases.json",), End.LOAD, "doesn't load")):
        code, out, error = silvervole("cases", *words)
        assert (code, out) == (end, "") and says in error and error.count("\n") == 1, error
    path = tmp_path / "list"
    path.write_bytes(listed({**GIVEN, "ruleId": "zzzzzz"}))
    assert silvervole("cases", path)[0] == End.INPUT
    code, _, error = silvervole("cases", LIST, env={**desk(tmp_path), "SILVERVOLE_PROGRAM": str(tmp_path / "none.sh")})
    assert code == End.PROGRAM and error.count("\n") == 1


def test_the_list_of_the_repository() -> None:
    """Each page of examples/cases stands in its list once, under names that a store takes too; each rule has a case of each kind."""
    cases = read_cases(LIST.read_bytes(), "testcases.json")
    whole = json.loads(LIST.read_text(encoding="utf-8"))
    assert whole["count"] == len(cases) == len({one.id for one in cases}) == len({(one.rule, one.title) for one in cases})
    pages = {str(path.relative_to(CASES)) for path in CASES.rglob("*") if path.parent != CASES and path.parent.name != "images"}
    assert {one.path for one in cases} == pages
    assert all(re.fullmatch(r"[a-z0-9._-]{1,64}", one.id) and one.address == f"https://cases.example/{one.path}" for one in cases)
    assert {(rule, expected) for rule in ORDER for expected in EXPECTED} <= {(one.rule, one.expected) for one in cases}
    assert {one.rule: one.rule_name for one in cases if one.rule in ORDER} == {rule.id: rule.name for rule in TABLE.rules.values()}
    assert all(given["rulePage"] == f"https://www.w3.org/WAI/standards-guidelines/act/rules/{given['ruleId']}/" for given in whole["testcases"])
