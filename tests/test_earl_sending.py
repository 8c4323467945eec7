"""`silvervole earl` as a whole: to a desk that stands in, at a terminal, and over two desks."""
from __future__ import annotations

import json
import os
import pathlib
import urllib.error
import urllib.request
from typing import Any, Iterator

import pytest

from serving import HOST, Serving
from silvervole.collect.ends import End, Stop
from silvervole.desk.asking import Access, Desk
from silvervole.earl import sending
from silvervole.earl.kept import read_report
from silvervole.earl.mapping import Claim
from silvervole.send.kept import Target
from silvervole.view.report import Finding

from .desk_of_one_page import ADDRESS, ROLES, DeskOfOnePage, Row, rooms
from .samples import ROOT
from .standin import at_terminal, plain_environment, silvervole
from .test_earl import DIGESTS, asserted, in_json

COMMAND = ROOT / "collector" / "earl"
READ = ("GET /sites/acme/pages/rooms", "GET /sites/acme/pages/rooms/outcomes")


@pytest.fixture
def desk() -> Iterator[DeskOfOnePage]:
    """A desk of one page."""
    with DeskOfOnePage() as made:
        yield made


def write(folder: pathlib.Path, *assertions: Any) -> pathlib.Path:
    """A file of assertions."""
    path = folder / "judged.jsonld"
    path.write_bytes(in_json(*assertions))
    return path


def run(desk: DeskOfOnePage, file: object, *words: object, caller: str = "bob", **given: Any) -> tuple[int, list[str], str]:
    """The status, the lines and what is said on standard error."""
    status, out, error = silvervole("earl", "--desk", desk.address, "--caller", caller, "acme/rooms", file, *words, **given)
    return status, out.splitlines(), error


def seen(node: int, note: str = "", **given: Any) -> dict[str, Any]:
    """An assertion with the digest of a heading's evidence."""
    return asserted(result={"pointer": f"node {node}", "info": f"{DIGESTS['b49b2e', node]} {note}".strip(), **given})


def heading(node: int, name: str, verdict: str = "passed") -> str:
    """What is said of a heading."""
    tag = "h1" if node == 7 else "h2"
    path = "#attic" if node == 11 else f"#main > {'h1' if node == 7 else 'h2:nth-of-type(1)'}"
    return f'b49b2e Heading is descriptive: {verdict}: {tag} "{name}" at {path} (node {node})'


READERS, GROUND, ATTIC = heading(7, "Rooms to read in"), heading(9, "Ground floor", "failed"), heading(11, "Attic", "cantTell")
FAILED, UNTOLD = {"outcome": "earl:failed"}, {"outcome": "earl:cantTell"}


def test_sent(desk: DeskOfOnePage, tmp_path: pathlib.Path) -> None:
    """Judgements with the digest of their evidence are sent in one request; sent again, none is."""
    file = write(tmp_path, seen(7, "Says it all."), seen(9, **FAILED), seen(11, **UNTOLD), asserted(mode="earl:automatic"), asserted(mode="earl:automatic"),
                 seen(7, pointer="node 11"), asserted(test="urn:act-rule:ffd0e9"))
    skipped = ["skipped: made by programs, and not by people (2 times)",
               f"skipped: {heading(11, 'Attic')}: its digest is of other evidence than the kept page has",
               'skipped: ffd0e9 Heading has non-empty accessible name: passed: h1 "Rooms to read in" at #main > h1 (node 7): the rule tells by itself: passed']
    added = [f"added: {READERS}", f"added: {GROUND}", f"added: {ATTIC}"]
    assert run(desk, file, "--dry-run") == (0, [*added, *skipped, "a trial, not sent: added 3, known 0, skipped 4"], "")
    assert desk.sent == []
    assert run(desk, file) == (0, [*skipped, *added, "added 3, known 0, skipped 4"], "")
    assert desk.sent == [("b49b2e", 7, "passed", "Says it all."), ("b49b2e", 9, "failed", ""), ("b49b2e", 11, "cantTell", "")]
    assert [one["by"] for one in desk.judgements] == ["bob"] * 3
    assert [f"{method} {path}" for method, path, _ in desk.asked] == [*READ, *READ, "POST /sites/acme/pages/rooms/earl"]
    status, lines, _ = run(desk, file)
    assert (status, lines[:3], lines[-1]) == (0, [f"known: {READERS}", f"known: {GROUND}", f"known: {ATTIC}"], "added 0, known 3, skipped 4")
    assert len(desk.judgements) == len(desk.sent) == 3
    assert run(desk, file, caller="cyd")[1][3] == f"added: {READERS.replace('passed', 'passed, in place of passed by bob')}"


def test_as_of(desk: DeskOfOnePage, tmp_path: pathlib.Path) -> None:
    """Without a digest nobody is asked where the revision is named, which has to be the kept one."""
    file = write(tmp_path, asserted(result={"pointer": "h1", "info": "Good."}))
    assert run(desk, file, "--as-of", "3") == (0, [f"added: {READERS}", "added 1, known 0, skipped 0"], "")
    assert desk.sent == [("b49b2e", 7, "passed", "Good.")] and desk.judgements[0]["digest"] == DIGESTS["b49b2e", 7]
    assert run(desk, file) == (0, [f"known: {READERS}", "added 0, known 1, skipped 0"], "")
    desk.judgements.clear()
    for words in (("--as-of", "2"), ("--as-of", "4", "--dry-run")):
        assert run(desk, file, *words) == (End.REVISION, [], f"silvervole earl: the desk keeps revision 3 of acme/rooms, and not {words[1]}: nothing is sent\n")
    assert desk.judgements == []
    status, lines, error = run(desk, file)
    assert (status, lines) == (End.USAGE, []) and "1 judgement without a digest of its evidence" in error and "--as-of REV" in error and error.count("\n") == 1
    assert run(desk, file, "--dry-run")[1] == [f"added: {READERS}: once its evidence is confirmed", "a trial, not sent: added 1, known 0, skipped 0"]
    assert run(desk, file, "--dry-run", "--as-of", "3")[1][0] == f"added: {READERS}" and desk.judgements == []


def asked(desk: DeskOfOnePage, file: object, answers: str, *words: object) -> tuple[int, str]:
    """The status at a terminal where these answers are given, and what it shows."""
    words = ("earl", "--desk", desk.address, "--caller", "bob", "acme/rooms", file, *words)
    status, text = at_terminal(*words, env=plain_environment(), answers=answers)
    return status, text.replace("\r\n", "\n")


def test_questions(desk: DeskOfOnePage, tmp_path: pathlib.Path) -> None:
    """Where the file has no digest, each finding's evidence is shown, and only what is confirmed is sent."""
    file = write(tmp_path, asserted(result={"info": "Good.\nSo\x1b[31m."}), asserted(result={"pointer": "node 9", **FAILED}), seen(11))
    status, text = asked(desk, file, "n\nwhat\ny\n")
    assert status == 0 and [one[:3] for one in desk.sent] == [("b49b2e", 9, "failed"), ("b49b2e", 11, "passed")]
    evidence = "  evidence: heading\n            Rooms to read in\n  note: Good.\n        So\\u001b[31m.\n"
    assert f"1 of 2: {READERS}\n  element: <h1>\n{evidence}Is this what was judged?" in text
    assert f"2 of 2: {GROUND}\n  element: <h2 class=\"t\">\n" in text and text.count("Is this what was judged?") == 3
    assert f"skipped: {READERS}: its evidence wasn't confirmed\n" in text and text.endswith("added 2, known 0, skipped 1\n")


@pytest.mark.parametrize("answers, sent", [
    ("a\n", [7, 9, 11]), ("y\na\n", [7, 9, 11]), ("q\n", []), ("y\nq\n", [7]), ("n\na\n", [9, 11]), ("Y\nN\nYes\n", [7, 11]), ("y\n\x04", [7])])
def test_answers(desk: DeskOfOnePage, tmp_path: pathlib.Path, answers: str, sent: list[int]) -> None:
    """All from here on, or none from here on; the end of the input is none."""
    file = write(tmp_path, *(asserted(result={"pointer": f"node {node}"}) for node in (7, 9, 11)))
    status, _ = asked(desk, file, answers)
    assert status == 0 and [node for _, node, *_ in desk.sent] == sent


def test_written(desk: DeskOfOnePage, tmp_path: pathlib.Path) -> None:
    """What would be sent is written in the desk's form instead, which this command takes again without a question."""
    file = write(tmp_path, asserted(result={"pointer": "h1", "info": "Good."}), asserted(mode="earl:semiAuto", result={"pointer": "#attic", **FAILED}),
                 asserted(test="urn:x"))
    made = tmp_path / "made"
    status, lines, error = run(desk, file, "--as-of", "3", "--write", made)
    assert (status, lines[-1], error, desk.sent) == (0, "written, not sent: added 2, known 0, skipped 1", "", [])
    assert json.loads(made.read_bytes()) == {"@context": {"earl": "http://www.w3.org/ns/earl#"}, "@graph": [
        {"@type": "earl:Assertion", "earl:assertedBy": {"@id": "urn:act-desk:user:bob"}, "earl:subject": {"@id": ADDRESS, "@type": "earl:TestSubject"},
         "earl:test": {"@id": "urn:act-rule:b49b2e", "@type": "earl:TestCase"}, "earl:mode": {"@id": f"earl:{mode}"},
         "earl:result": {"@type": "earl:TestResult", "earl:outcome": {"@id": f"earl:{verdict}"}, "earl:pointer": f"node {node}",
                         "earl:info": f"{DIGESTS['b49b2e', node]}{note}"}}
        for mode, verdict, node, note in (("manual", "passed", 7, " Good."), ("semiAuto", "failed", 11, ""))]}
    assert run(desk, made)[1][-1] == "added 2, known 0, skipped 0"
    assert run(desk, file, "--as-of", "3", "--write", made)[1][-1] == "written, not sent: added 0, known 2, skipped 1"
    assert len(json.loads(made.read_bytes())["@graph"]) == 2
    assert run(desk, file, "--as-of", "3", "--write", tmp_path)[0] == End.OUTPUT


def test_snapshot(desk: DeskOfOnePage, tmp_path: pathlib.Path) -> None:
    """Pointers are found in a snapshot of the kept page, and the desk isn't asked for that."""
    file, snapshot = write(tmp_path, seen(7, pointer="h1")), tmp_path / "page.json"
    snapshot.write_text(json.dumps(rooms()), encoding="utf-8")
    assert run(desk, file, "--snapshot", snapshot)[:2] == (0, [f"added: {READERS}", "added 1, known 0, skipped 0"])
    assert [path for _, path, _ in desk.asked] == ["/sites/acme/pages/rooms/outcomes", "/sites/acme/pages/rooms/earl"]
    snapshot.write_text(json.dumps({"rev": 2, "snapshot": rooms()}), encoding="utf-8")
    line = f"silvervole earl: {snapshot} is revision 2 of the page, and the desk keeps revision 3\n"
    assert run(desk, file, "--snapshot", snapshot)[::2] == (End.REVISION, line)
    snapshot.write_text(json.dumps({**rooms(), "nodes": rooms()["nodes"][:8]}), encoding="utf-8")
    assert run(desk, file, "--snapshot", snapshot)[::2] == (End.REVISION, f"silvervole earl: {snapshot} is no snapshot of the kept page: it has no node 14\n")


def test_notes(desk: DeskOfOnePage, tmp_path: pathlib.Path) -> None:
    """A note that is too long is cut between characters, and that is said."""
    file = write(tmp_path, seen(7, "a" * 1_999 + "\u00e9"), seen(9, "\u00e9" * 1_000))
    assert run(desk, file)[1][0] == f"added: {READERS}; its note is cut to 2,000 bytes"
    assert [len(note.encode()) for *_, note in desk.sent] == [1_999, 2_000]


@pytest.mark.parametrize("caller, says", [("eve", "your role there doesn't allow it: that of a judge is needed (403)"),
                                          ("zoe", "your role there doesn't allow it: that of a reader is needed (403)"),
                                          ("ann", "you sent the revision that is kept, and nobody judges their own work (403)")])
def test_who_may(desk: DeskOfOnePage, tmp_path: pathlib.Path, caller: str, says: str) -> None:
    """Whom the desk refuses, it refuses before it looks at any judgement."""
    status, lines, error = run(desk, write(tmp_path, seen(7), seen(9)), caller=caller)
    assert (status, lines, error) == (End.DESK, [], f"silvervole earl: the desk refuses: {says}\n")
    assert len(desk.sent) == 2 * (caller != "zoe") and desk.judgements == []


def test_a_page_that_moves(desk: DeskOfOnePage, tmp_path: pathlib.Path) -> None:
    """A page may change before judgements come to it: what it doesn't take any more is skipped, and all others are added."""
    def move(method: str, path: str) -> None:
        if method == "POST":
            desk.rows = [Row("b49b2e", 7, "failed", "x"), Row("b49b2e", 9, "cantTell", "heading\nFirst floor"), Row("b49b2e", 11, "cantTell", "heading\nAttic")]

    desk.before = move
    rows = [Row("b49b2e", node, "cantTell", f"heading\n{name}") for node, name in ((7, "Rooms to read in"), (9, "Ground floor"), (14, "More"), (11, "Attic"))]
    desk.rows = list(rows)
    file = write(tmp_path, *(asserted(result={"pointer": f"node {row.node}", "info": row.digest}) for row in rows))
    status, lines, error = run(desk, file)
    assert (status, error) == (0, "") and [line.rsplit(": ", 1)[1] if line.startswith("skipped") else line for line in lines] == [
        "failed", "its digest is of other evidence than the kept page has", "the rule has no outcome there", f"added: {heading(11, 'Attic')}", "added 1, known 0, skipped 3"]
    assert lines[0].endswith(": the rule tells by itself: failed")


def findings(desk: DeskOfOnePage) -> Iterator[tuple[int, Finding]]:
    """The headings that are to be judged."""
    report = read_report(Desk(Access(desk.address, "bob")), Target("acme", "rooms"))
    return ((one.node, one) for one in report.findings if one.rule == "b49b2e")


@pytest.mark.parametrize("limit, most", [("MOST_BYTES", 8_000), ("MOST_AT_ONCE", 3)])
def test_a_desk_that_ends(desk: DeskOfOnePage, monkeypatch: pytest.MonkeyPatch, limit: str, most: int) -> None:
    """Where the desk refuses amid judgements that are too many for one request, it is said how many it took; and the same command sends the rest."""
    # Three with such a note have less than 8,000 bytes, and four have more.
    monkeypatch.setattr(sending, limit, most)
    judgements = [(Claim("b49b2e", node, "passed", "manual", "", "a" * 2_000), finding) for node, finding in findings(desk)]
    target, asked = Target("acme", "rooms"), Desk(Access(desk.address, "bob"))

    def drop(method: str, path: str) -> None:
        if len([one for one in desk.asked if one[0] == "POST"]) == 2:
            desk.sender = "bob"

    desk.before = drop
    sent = sending.send(asked, target, ADDRESS, judgements * 2, "bob")
    assert next(sent) == (3, 3)
    with pytest.raises(Stop, match=r"nobody judges their own work \(403\); 3 of 6 judgements were sent before$"):
        next(sent)
    assert len(desk.judgements) == 3
    desk.before, desk.sender = None, "ann"
    assert list(sending.send(asked, target, ADDRESS, judgements, "bob")) == [(3, 0)] and len(desk.judgements) == 3


def test_known_before(desk: DeskOfOnePage, tmp_path: pathlib.Path) -> None:
    """What stands on the page's list already, behind which another judgement counts, is known to the desk, and nothing is added."""
    file = write(tmp_path, seen(7), seen(9, **FAILED))
    assert run(desk, file)[1][-1] == "added 2, known 0, skipped 0"
    assert run(desk, write(tmp_path, seen(7, **FAILED)), caller="cyd")[1][-1] == "added 1, known 0, skipped 0"
    file = write(tmp_path, seen(7), seen(9, **FAILED))
    assert run(desk, file)[1] == [f"known: {GROUND}", f"known: {READERS}: a later judgement counts", "added 0, known 2, skipped 0"]
    assert len(desk.judgements) == 3


def test_refused(desk: DeskOfOnePage, tmp_path: pathlib.Path) -> None:
    """Words, files and pages that are refused before anything is sent."""
    file = write(tmp_path, seen(7))
    for words, end, says in (
            ((), End.USAGE, "SITE/PAGE"), (("acme/rooms",), End.USAGE, "FILE"), (("rooms", file), End.USAGE, "a page is named SITE/PAGE"),
            (("acme/rooms", file, "--as-of", "0"), End.USAGE, "--as-of"), (("acme/rooms", file, "--yes"), End.USAGE, "--yes"),
            (("acme/rooms", file, "--context", "https://x.example/"), End.USAGE, "isn't ADDRESS=FILE"),
            (("acme/rooms", file, "--context", "=x"), End.USAGE, "isn't ADDRESS=FILE"),
            (("acme/rooms", file, "--dry-run", "--write", "x"), End.USAGE, "don't go together"),
            (("acme/none", file), End.DESK, "the desk keeps no page acme/none"), (("acme/rooms", tmp_path / "none"), End.INPUT, "can't be read"),
            (("acme/rooms", ROOT / "README.md"), End.INPUT, "is no Turtle"),
            (("acme/rooms", ROOT / "examples" / "smallest.json"), End.INPUT, "has no assertion of EARL 1.0"),
            (("acme/rooms", file, "--snapshot", tmp_path / "none"), End.INPUT, "can't be read"),
            (("acme/rooms", file, "--snapshot", file), End.INPUT, "is no snapshot")):
        status, out, error = silvervole("earl", "--desk", desk.address, "--caller", "bob", *words)
        assert (status, out) == (end, "") and says in error and error.count("\n") == 1 and desk.sent == [], (words, error)
    assert silvervole("earl", "acme/rooms", file)[0] == End.USAGE
    status, out, error = silvervole("earl", "--desk", "http://127.0.0.1:9", "--caller", "bob", "acme/rooms", file)
    assert (status, out) == (End.DESK, "") and "can't be reached" in error


def test_from_standard_input(desk: DeskOfOnePage) -> None:
    """The file may come from a pipe; then nobody can be asked."""
    assert run(desk, "-", stdin=in_json(seen(7)).decode())[1][-1] == "added 1, known 0, skipped 0"
    assert run(desk, "-", stdin=in_json(asserted(result={"pointer": "node 9"})).decode())[0] == End.USAGE


@pytest.mark.parametrize("module, says", [
    ("rdflib", "rdflib isn't there"), ("cssselect", "lxml and cssselect aren't there"), ("lxml", "lxml and cssselect aren't there")])
def test_what_is_lacking(desk: DeskOfOnePage, tmp_path: pathlib.Path, module: str, says: str) -> None:
    """A library that isn't installed is named with the package that has it, once it is needed."""
    (tmp_path / "without").mkdir()
    (tmp_path / "without" / f"{module}.py").write_text("raise ImportError\n", encoding="utf-8")
    env = {**plain_environment(), "PYTHONPATH": str(tmp_path / "without")}
    status, lines, error = run(desk, write(tmp_path, seen(7, pointer="h1")), env=env)
    assert (status, lines) == (End.BROWSER, []) and says in error and "(on Debian: apt-get install" in error and error.count("\n") == 1
    if module != "rdflib":
        assert run(desk, write(tmp_path, seen(7)), env=env)[0] == 0


def desk_reply(port: int, line: str, caller: str, body: bytes = b"", revision: int | None = None) -> bytes:
    """The reply of a built desk, a refusal too."""
    method, path = line.split()
    fields = {"x-caller": caller, **({"x-rev": str(revision)} if revision is not None else {})}
    request = urllib.request.Request(f"http://{HOST}:{port}{path}", data=None if method == "GET" else body, method=method, headers=fields)
    try:
        with urllib.request.urlopen(request, timeout=60) as reply:
            return bytes(reply.read())
    except urllib.error.HTTPError as error:
        with error:
            return error.read()


def keep(port: int, snapshot: bytes, page: str = "home") -> None:
    """Puts a page at a desk as ann, whose site has the members that stand in the other one."""
    desk_reply(port, "PUT /sites/acme", "ann")
    for name, role in ROLES.items():
        desk_reply(port, f"PUT /sites/acme/members/{name}", "ann", json.dumps({"role": role}).encode())
    assert b'"rev":1' in desk_reply(port, f"PUT /sites/acme/pages/{page}", "ann", snapshot, 0)


# Who judges which rule on which node, and the digest where it isn't the right one.
JUDGED = [
    ("bob", "b49b2e", 7, ""), ("bob", "b49b2e", 7, ""), ("ann", "b49b2e", 7, ""), ("eve", "b49b2e", 7, ""), ("bob", "2779a5", 1, ""),
    ("bob", "b49b2e", 13, ""), ("bob", "b49b2e", 9, "0" * 64), ("ann", "b49b2e", 9, "0" * 64), ("ann", "2779a5", 1, ""), ("eve", "b49b2e", 13, "")]


# Who sends which verdict and note on which heading, each with one on another page.
TAKEN = [("bob", 7, "failed", "n"), ("bob", 9, "passed", ""), ("bob", 9, "passed", ""), ("cyd", 9, "failed", "no"), ("bob", 9, "passed", ""),
         ("ann", 9, "passed", ""), ("eve", 9, "passed", "")]


@pytest.mark.desk
def test_the_stand_in(desk: DeskOfOnePage) -> None:
    """The desk that stands in takes and refuses judgements as the built one does."""
    with Serving(connections=1_000) as serving:
        keep(serving.port, json.dumps(rooms()).encode(), "rooms")
        for caller, rule, node, digest in JUDGED:
            body = json.dumps({"rule": rule, "node": node, "verdict": "failed", "digest": digest or DIGESTS.get((rule, node), "1" * 64), "note": "n"}).encode()
            built = json.loads(desk_reply(serving.port, f"POST {desk.path}/judgements", caller, body))
            assert json.loads(desk.answer("POST", f"{desk.path}/judgements", caller, body)[1]) == built, (caller, rule, node)
        found = dict(findings(desk))
        for caller, node, verdict, note in TAKEN:
            one = sending.assertion(ADDRESS, Claim("b49b2e", node, verdict, "manual", "", note), found[node], None)
            body = sending.document([one, {**one, "earl:subject": {"@id": "https://library.example/"}}], None)
            built = json.loads(desk_reply(serving.port, f"POST {desk.path}/earl", caller, body))
            assert json.loads(desk.answer("POST", f"{desk.path}/earl", caller, body)[1]) == built, (caller, node)
        told = json.loads(desk_reply(serving.port, f"GET {desk.path}/outcomes", "bob"))["outcomes"]
        assert [one for one in told if one["rule"] == "b49b2e"] == [one for one in desk.outcomes() if one["rule"] == "b49b2e"]


def outcomes(port: int) -> list[dict[str, Any]]:
    """The outcomes of the page."""
    return list(json.loads(desk_reply(port, "GET /sites/acme/pages/home/outcomes", "bob"))["outcomes"])


VERDICTS = ("passed", "failed", "cantTell")


@pytest.mark.desk
def test_two_desks(tmp_path: pathlib.Path) -> None:
    """What people judged at one desk goes out as its EARL, and comes to another desk with the same verdicts, each under the name of who sends it."""
    snapshot = (ROOT / "examples" / "library" / "home.json").read_bytes()
    with Serving(connections=1_000) as first, Serving(connections=1_000) as second:
        for serving in (first, second):
            keep(serving.port, snapshot)
        before = outcomes(first.port)
        to_judge = [one for one in before if one["automatic"] == "cantTell" and one["reason"] != "merged"]
        assert len(to_judge) > 5
        # The last one stays open, and those before it get each verdict.
        for place, one in enumerate(to_judge[:-1]):
            body = {"rule": one["rule"], "node": one["node"], "verdict": VERDICTS[place % 3], "digest": one["digest"], "note": "as it should be"}
            desk_reply(first.port, "POST /sites/acme/pages/home/judgements", "bob", json.dumps(body).encode())
        file = tmp_path / "home.jsonld"
        file.write_bytes(desk_reply(first.port, "GET /sites/acme/pages/home/earl", "bob"))
        words = ("earl", "--desk", f"http://{HOST}:{second.port}", "--caller", "bob", "acme/home")
        assert silvervole(*words, file)[0] == End.USAGE and silvervole(*words, file, "--as-of", "2")[0] == End.REVISION
        assert outcomes(second.port) == before
        sums = f"added {len(to_judge) - 1}, known 0, skipped "
        status, out, error = silvervole(*words, file, "--as-of", "1", "--dry-run")
        assert (status, error) == (0, "") and out.splitlines()[-1].startswith(f"a trial, not sent: {sums}") and outcomes(second.port) == before
        status, out, error = silvervole(*words, file, "--as-of", "1")
        assert (status, error) == (0, "") and out.splitlines()[-1].startswith(sums), (out, error)
        assert outcomes(second.port) == outcomes(first.port)
        kept = desk_reply(second.port, "GET /sites/acme/pages/home/earl", "bob")
        assert kept == file.read_bytes()
        # And back again: the first desk knows them all.
        file.write_bytes(kept)
        status, out, _ = silvervole("earl", "--desk", f"http://{HOST}:{first.port}", "--caller", "bob", "acme/home", file)
        assert status == 0 and out.splitlines()[-1].startswith(f"added 0, known {len(to_judge) - 1}, skipped ")
        assert outcomes(second.port) == outcomes(first.port)


@pytest.mark.desk
@pytest.mark.parametrize("name", ["judged.jsonld", "judged.ttl", "judged.rdf"])
def test_examples(tmp_path: pathlib.Path, name: str) -> None:
    """The examples are judgements of the example site's home page; by the built desk they are taken, written with digests, and taken again so."""
    made = tmp_path / "made.jsonld"
    with Serving(connections=1_000) as serving:
        keep(serving.port, (ROOT / "examples" / "library" / "home.json").read_bytes())
        words = ("earl", "--desk", f"http://{HOST}:{serving.port}", "--caller", "bob", "acme/home")
        status, out, error = silvervole(*words, ROOT / "examples" / "earl" / name, "--as-of", "1", "--write", made)
        assert (status, error) == (0, "") and out.splitlines()[-1] == "written, not sent: added 3, known 0, skipped 1", out
        status, out, error = silvervole(*words, made)
        assert (status, error) == (0, "") and out.splitlines()[-1] == "added 3, known 0, skipped 0", out
        judged = {(one["rule"], one["node"]): (one["outcome"], one["by"]) for one in outcomes(serving.port) if one["by"]}
        assert judged == {("b49b2e", 72): ("passed", "bob"), ("b49b2e", 86): ("failed", "bob"), ("c4a8a4", 1): ("passed", "bob")}
        assert silvervole(*words, ROOT / "examples" / "earl" / name)[1].splitlines()[-1] == "added 0, known 3, skipped 1"


def test_readme() -> None:
    """What examples/earl/README.md shows is what the command says."""
    shown = [line[4:] for line in (ROOT / "examples" / "earl" / "README.md").read_text(encoding="utf-8").splitlines() if line.startswith("    ")]
    page = json.loads((ROOT / "examples" / "library" / "home.json").read_bytes())
    rows = [Row("c4a8a4", 1, "cantTell", "title", "judge-title"), Row("b49b2e", 72, "cantTell", "heading"), Row("b49b2e", 86, "cantTell", "heading")]
    with DeskOfOnePage("home", page, rows, 1) as desk:
        for name in ("judged.jsonld", "judged.ttl", "judged.rdf"):
            words = ("earl", "--desk", desk.address, "--caller", "bob", "acme/home", ROOT / "examples" / "earl" / name)
            status, out, error = silvervole(*words, "--dry-run")
            lines = out.splitlines()
            assert (status, error, [lines[0], "...", *lines[-2:]]) == (0, "", shown), lines
        assert silvervole(*words, "--as-of", "1")[1].splitlines()[-1] == "added 3, known 0, skipped 1"
        assert desk.sent == [("b49b2e", 72, "passed", "It says whose page it is."), ("b49b2e", 86, "failed", "It doesn't say that events follow."),
                             ("c4a8a4", 1, "passed", "")]


def test_the_old_name(desk: DeskOfOnePage, tmp_path: pathlib.Path) -> None:
    """collector/earl is the same command."""
    file = write(tmp_path, seen(7))
    assert os.system(f"{COMMAND} --desk {desk.address} --caller bob acme/rooms {file} > /dev/null") == 0 and len(desk.judgements) == 1
