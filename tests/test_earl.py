"""`silvervole earl` on files: its forms, contexts, subjects, tests, pointers, and what becomes of each assertion."""
from __future__ import annotations

import json
import pathlib
import socket
from typing import Any

import pytest

from silvervole.collect.ends import End, Stop
from silvervole.earl.mapping import Claim, Mapper, Skipped
from silvervole.earl.subjects import Subjects
from silvervole.earl.taking import Fate, Taken, take
from silvervole.view.outcomes import read_outcomes
from silvervole.view.page import Page, read_page
from silvervole.view.report import Report

from .desk_of_one_page import ADDRESS, DeskOfOnePage, Row, rooms, rows
from .samples import ROOT, TABLE

pytest.importorskip("rdflib", reason="Python's rdflib isn't there (on Debian: apt-get install python3-rdflib)")
pytest.importorskip("cssselect", reason="Python's cssselect isn't there (on Debian: apt-get install python3-cssselect)")
pytest.importorskip("lxml", reason="Python's lxml isn't there (on Debian: apt-get install python3-lxml)")

from silvervole.earl.assertions import Assertion, read_assertions  # noqa: E402
from silvervole.earl.reading import form_of, read_statements  # noqa: E402

EXAMPLES = ROOT / "examples" / "earl"
ACT = "https://www.w3.org/WAI/standards-guidelines/act/rules"
EARL = "http://www.w3.org/ns/earl#"
DIGESTS = {(row.rule, row.node): row.digest for row in rows()}


def asserted(**given: Any) -> dict[str, Any]:
    """An assertion in the desk's own form, that the first heading passes; `result` adds to what is said of its result, and None takes away."""
    result = {"outcome": "earl:passed", "pointer": "node 7", **given.pop("result", {})}
    return prefixed({"subject": ADDRESS, "test": "urn:act-rule:b49b2e", "mode": "earl:manual", **given, "result": prefixed(result)})


def prefixed(given: dict[str, Any]) -> dict[str, Any]:
    """Properties of EARL by their names, without those that are None."""
    return {f"earl:{name}": value for name, value in given.items() if value is not None}


def in_json(*assertions: Any, context: Any = None) -> bytes:
    """A file of assertions in JSON-LD."""
    return json.dumps({**({"@context": context} if context is not None else {}), "@graph": list(assertions)}).encode("utf-8")


def read(data: bytes, **copies: str) -> list[Assertion]:
    """The assertions of a file."""
    return read_assertions(read_statements(data, "file", copies), "file")


def kept() -> tuple[Page, Report]:
    """The page of rooms and its outcomes."""
    return read_page(json.dumps(rooms()).encode(), "page"), told_by(DeskOfOnePage())


def told_by(desk: DeskOfOnePage) -> Report:
    """The outcomes that a desk tells."""
    return read_outcomes(json.dumps(desk.reply("GET", f"{desk.path}/outcomes", "bob", b"")).encode(), "outcomes")


def mapped(*assertions: dict[str, Any], subjects: tuple[str, ...] = ()) -> list[Claim | Skipped]:
    """What assertions say of the page of rooms."""
    page, report = kept()
    return list(Mapper(page, report, Subjects(ADDRESS, subjects), TABLE).all(read(in_json(*assertions))))


def why(*assertions: dict[str, Any]) -> list[str]:
    """Why assertions are skipped; of claims their node."""
    return [one.why if isinstance(one, Skipped) else f"node {one.node}" for one in mapped(*assertions)]


@pytest.mark.parametrize("data, form", [
    (b'{"a": 1}', "json-ld"), (b"\xef\xbb\xbf\n {", "json-ld"), (b'[{"@id": "urn:x"}]', "json-ld"), (b"[] a <urn:x> .", "turtle"),
    (b"@prefix a: <urn:a> .", "turtle"), (b"<urn:a> <urn:b> <urn:c> .", "turtle"), (b'<?xml version="1.0"?><rdf:RDF xmlns:rdf="x"/>', "xml"),
    (b'<rdf:RDF xmlns:rdf="x"/>', "xml")])
def test_forms(data: bytes, form: str) -> None:
    """The form is told by how a file begins."""
    assert form_of(data) == form


@pytest.mark.parametrize("name", ["judged.jsonld", "judged.ttl", "judged.rdf"])
def test_examples(name: str) -> None:
    """The three examples say the same, in the same order, by a context that is only named, by Turtle and by RDF/XML."""
    first, second, third, last = read((EXAMPLES / name).read_bytes())
    assert (first.subjects, first.mode, first.outcome, first.note) == (("https://library.example/",), "manual", "passed", "It says whose page it is.")
    assert first.tests == (f"{ACT}/b49b2e/",) and [pointer.kind.value for pointer in first.places[0].pointers] == ["CSS selector"]
    assert (second.tests, second.outcome, [pointer.kind.value for pointer in second.places[0].pointers]) == ((f"{ACT}/b49b2e/",), "failed", ["XPath"])
    assert (third.tests, third.mode, third.outcome, third.places, third.date) == (("urn:act-rule:c4a8a4",), "semiAuto", "passed", (), "2026-11-28")
    assert (last.mode, last.outcome) == ("automatic", "passed")


def test_order() -> None:
    """Assertions come as the file has them, in each form, since the last one on a finding counts."""
    names = [f"https://other.example/{number}" for number in range(200)]
    turtle = f"@prefix e: <{EARL}> .\n" + "".join(f"[] a e:Assertion ; e:subject <{name}> ; e:result [ e:info 'x' ] .\n" for name in names)
    xml = (f'<r:RDF xmlns:r="http://www.w3.org/1999/02/22-rdf-syntax-ns#" xmlns:e="{EARL}">'
           + "".join(f'<e:Assertion><e:subject r:resource="{name}"/></e:Assertion>' for name in names) + "</r:RDF>")
    for data in (in_json(*(asserted(subject={"@id": name}) for name in names)), turtle.encode(), xml.encode()):
        assert [one.subjects for one in read(data)] == [(name,) for name in names]


CONTEXT: dict[str, Any] = {
    "@vocab": EARL, "outcome": {"@type": "@vocab"}, "test": {"@type": "@id"}, "subject": {"@type": "@id"}, "mode": {"@type": "@vocab"}}
PLAIN: dict[str, Any] = {
    "@type": "Assertion", "subject": ADDRESS, "test": f"{ACT}/b49b2e/proposed/", "mode": "manual", "result": {"outcome": "failed", "pointer": "h1"}}


@pytest.mark.parametrize("document", [
    {**PLAIN, "@context": CONTEXT}, {"@context": [CONTEXT, {"more": "urn:more"}], "@graph": [PLAIN]}, [{**PLAIN, "@context": CONTEXT}],
    {**PLAIN, "@context": "https://act-rules.github.io/earl-context.json"}, {**PLAIN, "@context": ["https://tools.example/a/earl-context.jsonld"]},
    {**PLAIN, "@context": "http://www.w3.org/ns/earl"},
    {"@context": "https://act-rules.github.io/earl-context.json", "@graph": [{"@type": "Assertor", "@id": "https://tools.example/", "assertions": [PLAIN]}]},
    {"@context": {"@import": "https://act-rules.github.io/earl-context.json"}, **PLAIN},
    {"@context": {"own": {"@id": "urn:own", "@context": "https://act-rules.github.io/earl-context.json"}}, "own": PLAIN},
    [{"@type": [f"{EARL}Assertion"], f"{EARL}subject": [{"@id": ADDRESS}], f"{EARL}test": [{"@id": f"{ACT}/b49b2e/proposed/"}],
      f"{EARL}mode": [{"@id": f"{EARL}manual"}],
      f"{EARL}result": [{f"{EARL}outcome": [{"@id": f"{EARL}failed"}], f"{EARL}pointer": [{"@value": "h1"}]}]}]])
def test_shapes_of_json(document: Any) -> None:
    """JSON-LD of many shapes says one thing: compact, expanded, with contexts within, named, imported, and of a term."""
    one, = read(json.dumps(document).encode())
    assert (one.subjects, one.tests, one.mode, one.outcome, str(one.places[0])) == ((ADDRESS,), (f"{ACT}/b49b2e/proposed/",), "manual", "failed", "h1")


def test_contexts(tmp_path: pathlib.Path, monkeypatch: pytest.MonkeyPatch) -> None:
    """What isn't known here is never fetched: a copy is named, or it is refused."""
    def none(*given: object) -> None:
        raise AssertionError("the network is asked")

    monkeypatch.setattr(socket, "socket", none)
    monkeypatch.setattr(socket, "create_connection", none)
    named, copy = "https://tools.example/context?v=1", tmp_path / "copy.json"
    data = json.dumps({**PLAIN, "@context": named}).encode()
    with pytest.raises(Stop) as stopped:
        read(data)
    assert stopped.value.end is End.INPUT
    assert stopped.value.line == f"its context {named} isn't known here, and none is fetched: --context {named}=FILE names a copy of it"
    copy.write_text(json.dumps({"@context": CONTEXT}), encoding="utf-8")
    assert read(data, **{named: str(copy)})[0].outcome == "failed"
    for text, says in ((json.dumps({"@context": named}), "in a circle"), ("[]", "is no context"), ("{", "is no context"), ("{}", "is no context")):
        copy.write_text(text, encoding="utf-8")
        with pytest.raises(Stop) as stopped:
            read(data, **{named: str(copy)})
        assert stopped.value.end is End.INPUT and says in stopped.value.line
    entity = (f'<!DOCTYPE r:RDF SYSTEM "http://tools.example/x.dtd" [<!ENTITY e SYSTEM "file:///etc/hostname">]>'
              f'<r:RDF xmlns:r="http://www.w3.org/1999/02/22-rdf-syntax-ns#" xmlns:e="{EARL}"><e:Assertion><e:subject>a&e;</e:subject></e:Assertion></r:RDF>')
    assert read(entity.encode())[0].subjects == ("a",)


@pytest.mark.parametrize("data, says", [
    (b"", "no assertion"), (b"{}", "no assertion"), (b"{", "is no JSON-LD"), (b"[" * 100_000, "is no Turtle"), (b"nothing", "is no Turtle"),
    (b"\xff", "isn't in UTF-8"),
    (b'<r:RDF xmlns:r="http://www.w3.org/1999/02/22-rdf-syntax-ns#"><a></r:RDF>', "is no RDF/XML"), (b'{"a":' * 100_000, "is no JSON-LD"),
    (b'{"@graph": [{"@id": 7, "@type": {}}]}', "")])
def test_no_earl(data: bytes, says: str) -> None:
    """What is no EARL is refused in a line, whatever the reader meets."""
    with pytest.raises(Stop) as stopped:
        read(data)
    assert stopped.value.end is End.INPUT and stopped.value.line.startswith("file ") and says in stopped.value.line


SUBJECTS = [
    (ADDRESS, ""), ("HTTPS://Library.Example:443/rooms", ""), ({"@id": ADDRESS}, ""), ({"http://purl.org/dc/terms/source": {"@id": ADDRESS}}, ""),
    ({"http://purl.org/dc/terms#source": ADDRESS}, ""), ({"@id": "urn:x", "https://schema.org/url": ADDRESS}, ""),
    (f"{ADDRESS}#attic", "in its fragment"), (f"{ADDRESS}/", "in the slash at its end"), (f"{ADDRESS}?a=b", "in its query"),
    ("http://library.example/rooms", "in http or https"), ("https://library.example/Rooms", None), ("https://other.example/rooms", None),
    ("http://[", None), ("rooms", None)]


@pytest.mark.parametrize("subject, differs", SUBJECTS)
def test_subjects(subject: Any, differs: str | None) -> None:
    """Spellings of one address are the page's; another fragment, query, slash or scheme isn't, unless it is said to be."""
    one, = mapped(asserted(subject=subject))
    if differs == "":
        assert isinstance(one, Claim) and one.node == 7
        return
    assert isinstance(one, Skipped) and one.what == ""
    end = f", which differs {differs} alone; --subject {subject} takes it for the page" if differs else ""
    assert one.why == f"about {subject}, and not {ADDRESS}{end}"
    assert isinstance(mapped(asserted(subject=subject), subjects=(subject,))[0], Claim) is (subject != "http://[")


@pytest.mark.parametrize("test, says", [
    ("urn:act-rule:b49b2e", "node 7"), ("b49b2e", "node 7"), ({"@id": "b49b2e"}, "node 7"), (f"{ACT}/b49b2e/", "node 7"), (f"{ACT}/b49b2e", "node 7"),
    (f"{ACT}/b49b2e/proposed/", "node 7"), ("https://www.w3.org/WAI/standards-guidelines/fr/act/rules/b49b2e/", "node 7"),
    ("https://act-rules.github.io/rules/b49b2e", "node 7"), ({"http://purl.org/dc/terms/source": {"@id": f"{ACT}/b49b2e/"}}, "node 7"),
    ({"@id": "https://tool.example/headings", "http://purl.org/dc/terms/identifier": "b49b2e"}, "node 7"),
    ({"@id": "https://tool.example/h", "http://www.w3.org/2002/07/owl#sameAs": {"@id": f"{ACT}/b49b2e/#x"}}, "node 7"),
    ("https://tool.example/headings", "its test is no ACT rule"), ("B49B2E", "its test is no ACT rule"), ("urn:act-rule:b49b2e1", "its test is no ACT rule"),
    ({}, "it says no test"), (None, "it says no test"), ("https://www.w3.org/TR/WCAG22/#headings-and-labels", "its test is a success criterion, and no rule"),
    ("urn:act-rule:zzzzzz", "the desk has no such rule"), (["urn:act-rule:b49b2e", "urn:act-rule:c487ae"], "its tests are several rules: b49b2e, c487ae"),
    ("urn:act-rule:cf77f2", "nobody judges a rule that merges others: judge those")])
def test_tests(test: Any, says: str) -> None:
    """A test is the rule's published address, the desk's own name of it, or its id, by itself or by what is said of it."""
    assert why({**asserted(test=test), "@type": f"{EARL}Assertion"}) == [says]


@pytest.mark.parametrize("given, says", [
    ({"mode": "earl:automatic"}, "made by programs, and not by people"), ({"mode": "earl:semiAuto"}, "node 7"), ({"mode": {"@id": f"{EARL}manual"}}, "node 7"),
    ({"mode": "earl:undisclosed"}, "its mode is undisclosed, and neither manual nor semiAuto"),
    ({"mode": None}, "its mode is not told, and neither manual nor semiAuto"),
    ({"subject": None}, "its subject has no address"), ({"subject": {}}, "its subject has no address"),
    ({"result": {"outcome": None}}, "its outcome is not told, and none of failed, cantTell, passed"),
    ({"result": {"outcome": "earl:inapplicable"}}, "its outcome is inapplicable, and none of failed, cantTell, passed"),
    ({"result": {"outcome": {"@id": "urn:fine", "@type": f"{EARL}Pass"}}}, "node 7"), ({"result": {"outcome": "earl:CannotTell"}}, "node 7"),
    ({"result": {"outcome": {"@id": f"{EARL}cantTell"}}}, "node 7"),
    ({"result": {"outcome": {"@type": f"{EARL}NotTested"}}}, "its outcome is untested, and none of failed, cantTell, passed")])
def test_what_is_no_verdict(given: dict[str, Any], says: str) -> None:
    """Only what people judged, and judged so, is taken."""
    assert why(asserted(**given)) == [says]


PTR = "http://www.w3.org/2009/pointers#"


def pointing(kind: str, expression: str) -> dict[str, Any]:
    """A pointer of the W3C's vocabulary."""
    return {"@type": f"{PTR}{kind}", f"{PTR}expression": expression}


def group(*pointers: Any) -> dict[str, Any]:
    """Pointers that all lead to one place."""
    return {"@type": f"{PTR}EquivalentPointers", f"{PTR}groupPointer": list(pointers)}


NODES = [("node 9", "node 9"), ("node 99", "the page has no node 99"), ("node 09", "its CSS selector can't be read: "), (None, "it says no place")]
CSS = [
    ("h1", "node 7"), ("H2.t", "node 9"), ("html > body > main > h2:nth-of-type(2)", "node 11"), ("#attic", "node 11"), ("main > :nth-child(3)", "node 11"),
    ("p > linearGradient[viewBox]", "node 19"), ("p > :nth-child(4)", "node 20"), ("h2[class=t]", "node 9"), ("p > a:last-of-type", "node 17"),
    ("h2", "its CSS selector matches 2 elements"), ("h4", "its CSS selector matches no element"), ("h1 >> b", "its CSS selector can't be read: "),
    ("h1:hover-ish", "its CSS selector can't be read: "), ("", "its CSS selector can't be read: "), ("count(//h1)", "its CSS selector can't be read: ")]
XPATH = [
    ("/html/body/main/h2[1]", "node 9"), ("/HTML[1]/BODY[1]/MAIN[1]/H2[2]", "node 11"), ("//h2[text()='Attic']", "node 11"), ("//*[@id='attic']", "node 11"),
    ("(//h2)[1]", "node 9"), ("./html/body/main/h1", "node 7"), ("id('main')/h2[2]", "node 11"), ("/h:html/h:body/child::h:main/h:h1", "node 7"),
    ("//*[@viewBox]", "node 19"), ("//h2", "its XPath matches 2 elements"), ("//h4", "its XPath matches no element"),
    ("//h1/text()", "its XPath matches no element"), ("/html[", "its XPath can't be read: "), ("//h2[contains(., 'GROUND')]", "its XPath matches no element")]
ADDRESSES = [
    (f"{ADDRESS}#attic", "node 11"), ({"@id": f"{ADDRESS}#attic"}, "node 11"), (f"{ADDRESS}#none", "its address matches no element"),
    (ADDRESS, "its pointer is an address of another page, or without a fragment"),
    ("https://other.example/#attic", "its pointer is an address of another page, or without a fragment")]
OBJECTS = [
    (pointing("CSSSelectorPointer", "h1"), "node 7"), (pointing("XPathPointer", "/html/body/main/h1"), "node 7"), (pointing("XPathPointer", "html"), "node 1"),
    ({"@value": "h1", "@type": f"{PTR}CSSSelectorPointer"}, "node 7"), ({f"{PTR}expression": "h1"}, "node 7"),
    (pointing("XPointerPointer", "xpointer(/html)"), "its pointer is of a kind that isn't known: XPointerPointer"),
    ({"@type": f"{PTR}ByteSnippetCompoundPointer"}, "its pointer is of a kind that isn't known: ByteSnippetCompoundPointer"),
    ({"urn:x": 1}, "its pointer is of a kind that isn't known: nothing that is known"),
    (group(pointing("XPointerPointer", "x"), pointing("CSSSelectorPointer", "h1"), "node 7"), "node 7"),
    (group("h1", "node 9"), "its pointers lead to different nodes: 7, 9"), (group("h2", "node 99"), "its CSS selector matches 2 elements")]


@pytest.mark.parametrize("pointer, says", [*NODES, *CSS, *XPATH, *ADDRESSES, *OBJECTS])
def test_pointers(pointer: Any, says: str) -> None:
    """A pointer leads to one node, or it is said why it leads to none."""
    said, = why(asserted(result={"pointer": pointer}))
    assert said == says or (says.endswith(": ") and said.startswith(says) and len(said) > len(says)), said


def test_places() -> None:
    """A result at several places is one judgement at each; of the page as a whole none needs to be said."""
    assert why(asserted(result={"pointer": ["h1", "#attic", "node 7", "h4"]})) == ["its CSS selector matches no element", "node 7", "node 11"]
    assert why(asserted(test="urn:act-rule:c4a8a4", result={"pointer": None})) == ["node 1"]
    assert why(asserted(test="urn:act-rule:97a4e1", result={"pointer": None})) == ["it says no place"]
    assert [(one.what, one.why) for one in mapped(asserted(test=f"{ACT}/b49b2e/", result={"pointer": "h4"})) if isinstance(one, Skipped)] == [
        ("b49b2e Heading is descriptive: passed: h4", "its CSS selector matches no element")]
    assert [one.what for one in mapped(asserted(test="urn:x", result={"pointer": "h1"})) if isinstance(one, Skipped)] == ["urn:x: passed: h1"]


@pytest.mark.parametrize("given, digest, note", [
    ({"info": "a" * 64}, "a" * 64, ""), ({"info": f"{'0a' * 32} Good\nso."}, "0a" * 32, "Good\nso."), ({"info": "A" * 64}, "", "A" * 64),
    ({"info": f"{'a' * 64}x"}, "", f"{'a' * 64}x"),
    ({"info": " Good. "}, "", "Good."), ({"info": ["Good.", "b" * 64]}, "b" * 64, ""), ({}, "", "")])
def test_info(given: dict[str, Any], digest: str, note: str) -> None:
    """64 hexadecimal digits in lower case are the evidence's digest, and what stands behind them a note; all else is a note."""
    one, = read(in_json(asserted(result=given)))
    assert (one.digest, one.note) == (digest, note)


def test_reasons() -> None:
    """The reason that a desk's own EARL tells is no note of anybody's."""
    assert [one.note for one in mapped(asserted(result={"info": "judge-heading"}), asserted(result={"info": "ok"})) if isinstance(one, Claim)] == ["", "ok"]


def test_described() -> None:
    """Where no info is given, a description is the note."""
    one = asserted()
    one["earl:result"]["http://purl.org/dc/terms/description"] = "Good."
    assert read(in_json(one))[0].note == "Good."


def taken(*claims: Claim, hand: str | None = "bob", judged: tuple[tuple[str, int, str, str], ...] = ()) -> list[tuple[str, str]]:
    """What becomes of claims on the page of rooms, on which these were judged before: rule, node, verdict, by whom."""
    desk = DeskOfOnePage()
    desk.judgements = [{"rule": rule, "node": node, "verdict": verdict, "by": by, "digest": DIGESTS[rule, node]} for rule, node, verdict, by in judged]
    return [(one.fate.value, one.why) if isinstance(one, Taken) else ("skipped", one.why) for one in take(claims, told_by(desk), hand)]


def claim(node: int = 7, verdict: str = "passed", rule: str = "b49b2e", digest: str = "", date: str = "") -> Claim:
    """A claim without a note."""
    return Claim(rule, node, verdict, "manual", digest, "", date)


ADDED, KNOWN = ("added", ""), ("known", "")
LATER = ("skipped", "a later assertion says failed of the same")


def test_taking() -> None:
    """Only what a person has to judge is judged, on the evidence as it is, and what is known stays known."""
    assert taken(claim(), claim(9, "cantTell")) == [ADDED, ADDED]
    assert taken(claim(6), claim(rule="ffd0e9"), claim(rule="97a4e1")) == [
        ("skipped", "the rule has no outcome there"), ("skipped", "the rule tells by itself: passed"), ("skipped", "the rule has no outcome there")]
    assert taken(claim(digest=DIGESTS["b49b2e", 7]), claim(9, digest=DIGESTS["b49b2e", 7])) == [
        ADDED, ("skipped", "its digest is of other evidence than the kept page has")]
    before = (("b49b2e", 7, "passed", "bob"), ("b49b2e", 9, "passed", "cyd"))
    assert taken(claim(), claim(9), judged=before) == [KNOWN, ADDED]
    assert taken(claim(verdict="failed"), judged=before) == [ADDED] and taken(claim(), judged=before, hand=None) == [ADDED]


def test_the_last_counts() -> None:
    """Of several on one finding the last counts, by date where both have one; so the file sent again changes nothing."""
    assert taken(claim(), claim(verdict="failed")) == [LATER, ADDED]
    assert taken(claim(), claim(verdict="failed"), judged=(("b49b2e", 7, "passed", "bob"), ("b49b2e", 7, "failed", "bob"))) == [LATER, KNOWN]
    assert taken(claim(), claim()) == [KNOWN, ADDED]
    assert taken(claim(verdict="failed", date="2026-11-28"), claim(date="2026-11-27T23:00:00Z")) == [ADDED, LATER]
    assert taken(claim(verdict="passed", date="2026-11-28"), claim(verdict="failed", date="soon")) == [LATER, ADDED]
    assert taken(claim(verdict="failed"), claim(digest="0" * 64))[0] == ADDED


def test_a_row_is_a_row() -> None:
    """The stand-in's evidence has the digests that a desk has."""
    assert Row("2779a5", 1, "passed", "").digest == "e3b0c44298fc1c149afbf4c8996fb92427ae41e4649b934ca495991b7852b855"
    assert Fate.ADDED.value == "added"
