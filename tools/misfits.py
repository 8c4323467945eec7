"""Requests for tools/test-api: those that have one thing wrong each are refused, and fit no description; the others are read."""
from __future__ import annotations

import itertools
import string
from typing import Any

from refusals import EVIDENCE, PAGE
from serving import request

ROWS: list[dict[str, Any]] = PAGE["nodes"]


def snapshot(**row: Any) -> dict[str, Any]:
    """A page whose last row is a paragraph with these members; those that are `...` are left out."""
    made = {"n": 4, "p": 1, "tag": "p", **row}
    return {**PAGE, "nodes": [*ROWS, {name: value for name, value in made.items() if value is not ...}]}


def edit(op: str, **members: Any) -> dict[str, Any]:
    """A list of one edit."""
    return {"edits": [{"op": op, **members}]}


def entry(**members: Any) -> dict[str, Any]:
    """An import of one page, without the members that are `...`."""
    made = {"page": "new", "rev": 0, "snapshot": PAGE, **members}
    return {"pages": [{name: value for name, value in made.items() if value is not ...}]}


def judged(**members: Any) -> dict[str, Any]:
    """A judgement, without the members that are `...`."""
    made = {"rule": "c4a8a4", "node": 1, "verdict": "passed", "digest": EVIDENCE, **members}
    return {name: value for name, value in made.items() if value is not ...}


MEMBERS: list[Any] = [{}, [], 1, {"role": None}, {"role": "boss"}, {"role": "Owner"}, {"role": ["owner"]}, {"role": "judge\n"}]
# So many subtags that differ: aaa, aab and so on.
SUBTAGS = ["".join(letters) for letters in itertools.islice(itertools.product(string.ascii_lowercase, repeat=3), 1_001)]
LISTS: list[Any] = [None, "gsw", {}, [1], [None], ["gsw", "gsw"], ["gsw", ["haw"]], ["GSW"], ["en"], ["gsws"], [""], ["g-w"], ["gsw\n"],
                    ["\u00e9aa"], SUBTAGS]
LANGUAGES: list[Any] = [{}, [], *({"languages": languages} for languages in LISTS)]
ATTRIBUTES: list[Any] = [None, {}, ["id"], [["id"]], [["id", "a", "b"]], [["", "a"]], [["id", 1]], [["id", "a" * 65_537]],
                         [[f"data-{n}", ""] for n in range(65)]]
SNAPSHOTS: list[Any] = [
    [], {"nodes": ROWS}, {"url": 1, "nodes": ROWS}, {"url": "ftp://a/", "nodes": ROWS}, {"url": "/home", "nodes": ROWS},
    {"url": "https://example.org/" + "a" * 65_536, "nodes": ROWS}, {"url": PAGE["url"]}, {"url": PAGE["url"], "nodes": {}},
    {"url": PAGE["url"], "nodes": []}, {"url": PAGE["url"], "nodes": [{"n": 1, "p": None, "text": "x"}]},
    {"url": PAGE["url"], "nodes": [{"n": 1, "p": 1, "tag": "html"}]}, {"url": PAGE["url"], "nodes": [*ROWS, []]},
    *(snapshot(n=n) for n in (..., 0, -1, 4_294_967_296, 1.5, "4", None, True)),
    *(snapshot(p=p) for p in (..., None, 0, 4_294_967_296, "1", 1.5)),
    *(snapshot(tag=tag) for tag in (..., None, "", 1, "a" * 65_537)), snapshot(text="x"), snapshot(tag=None, text="x"),
    *(snapshot(tag=..., text=text) for text in (None, 1, "a" * 65_537)),
    *(snapshot(ns=ns) for ns in (None, "math", "HTML", 1)),
    *(snapshot(attrs=attrs) for attrs in ATTRIBUTES),
    *(snapshot(f=letters) for letters in (None, "rr", "rvx", "RV", ["r"], "rv ", "rv\n"))]
PAGES: list[Any] = [..., None, [], {}, {**PAGE, "url": "x"}, snapshot(tag=...)]
IMPORTS: list[Any] = [
    [], {}, {"pages": {}}, {"pages": []}, {"pages": [1]}, {"pages": [{"page": f"p{n}", "rev": 0, "snapshot": PAGE} for n in range(65)]},
    *(entry(page=page) for page in (..., None, 1, "", "Home", "a" * 65, "home\n")), *(entry(rev=rev) for rev in (..., None, -1, "0", 1.5, 2 ** 63)),
    *(entry(snapshot=page) for page in PAGES)]
EDITS: list[Any] = [
    [], {}, {"edits": {}}, {"edits": [1]}, {"edits": [{}]}, edit("fly"), {"edits": [{"op": 1}]}, {"edits": [{"op": "remove", "node": 2}] * 201},
    edit("setAttr", name="id", value="a"), edit("setAttr", node=0, name="id", value="a"), edit("setAttr", node=1, value="a"),
    edit("setAttr", node=1, name="id"), edit("setAttr", node=1, name=1, value="a"), edit("setAttr", node=1, name="id", value=None),
    edit("dropAttr", node=1), edit("dropAttr", name="id"), edit("dropAttr", node="1", name="id"),
    edit("setText", node=3), edit("setText", text="x"), edit("setText", node=3, text=1),
    edit("setFacts", node=3), edit("setFacts", f="rv"), edit("setFacts", node=3, f="vv"), edit("setFacts", node=3, f=None),
    edit("insert", place=0, rows=[{"n": 9, "p": None, "text": "x"}]), edit("insert", parent=1, rows=[{"n": 9, "p": None, "text": "x"}]),
    edit("insert", parent=1, place=-1, rows=[{"n": 9, "p": None, "text": "x"}]), edit("insert", parent=1, place=0),
    edit("insert", parent=1, place=0, rows=[]),
    edit("insert", parent=1, place=0, rows=[{"n": 9, "p": 1, "text": "x"}]), edit("insert", parent=1, place=0, rows=[{"n": 9, "p": None}]),
    edit("remove"), edit("remove", node=4_294_967_296), edit("move", node=2, parent=1), edit("move", node=2, place=0),
    edit("move", parent=1, place=0), edit("move", node=2, parent=1, place=4_294_967_296)]
JUDGEMENTS: list[Any] = [
    [], {}, *(judged(rule=rule) for rule in (..., None, "cf77f2", "aaaaaa", "C4A8A4", 2)),
    *(judged(node=node) for node in (..., 0, "1", 4_294_967_296)),
    *(judged(verdict=verdict) for verdict in (..., "inapplicable", "canttell", None)),
    *(judged(digest=digest) for digest in (..., EVIDENCE[:-1], EVIDENCE + "0", "g" * 64, None, EVIDENCE + "\n")),
    *(judged(note=note) for note in (None, 1, "a" * 2_001))]
EARL: list[Any] = [[], "earl", None, {}, {"graph": []}, {"@graph": None}, {"@graph": {}}, {"@graph": "x"}, {"@graph": [0] * 10_001}]
# Who asks what with which revision, and bodies that it hasn't.
BODIES: list[tuple[str, int | None, list[Any]]] = [
    ("PUT /sites/r/members/new", None, MEMBERS), ("PUT /sites/r/languages", None, LANGUAGES), ("PUT /sites/r/pages/new", 0, SNAPSHOTS),
    ("POST /sites/r/import", None, IMPORTS),
    ("POST /sites/r/pages/home/edits", 1, EDITS), ("POST /sites/r/pages/home/judgements", None, JUDGEMENTS),
    ("POST /sites/r/pages/home/earl", None, EARL)]
# What is read, though it looks odd: members that aren't named, letters in any order or case, what isn't looked at on a text.
READ: list[tuple[str, int | None, list[Any]]] = [
    ("PUT /sites/r/members/new", None, [{"role": role} for role in ("owner", "editor", "judge", "reader", "none")] + [{"role": "judge", "since": 1}]),
    ("PUT /sites/r/languages", None, [{"languages": []}, {"languages": ["gsw", "haw"], "since": 1}, {"languages": SUBTAGS[:1_000]}]),
    ("PUT /sites/r/pages/read", 0, [
        {**PAGE, "state": "open", "frame": 2},
        *({**PAGE, "url": url} for url in (" HTTPS://Example.org", "https:example.org", "ht\ntp://a/", "http://\u00e9.example/")),
        *(snapshot(f=letters) for letters in ("", "tfvr", "v")), snapshot(attrs=[["\u00e9", ""]]), snapshot(ns="svg", hand=None),
        snapshot(tag=..., text="", ns=1, attrs=1), snapshot(n=4_294_967_295)]),
    ("POST /sites/r/import", None, [entry(page="n.e_w-", rev=7), entry(rev=2 ** 63 - 1), {**entry(), "more": []}]),
    ("POST /sites/r/pages/home/edits", 0, [
        {"edits": []}, edit("setAttr", node=1, name="", value=""), edit("dropAttr", node=9, name="id", value=1), edit("setText", node=3, text=""),
        edit("setFacts", node=1, f=""), edit("insert", parent=1, place=0, rows=[{"n": 9, "p": None, "text": "x"}]),
        edit("insert", parent=1, place=0, rows=[{"n": 9, "p": None, "tag": "p"}, {"n": 10, "p": 9, "text": "x"}]), edit("remove", node=2),
        edit("move", node=3, parent=1, place=4_294_967_295)]),
    ("POST /sites/r/pages/home/judgements", None, [judged(digest="F" * 64), judged(note=""), judged(note="a" * 2_000, who="me")]),
    ("POST /sites/r/pages/home/earl", None, [{"@graph": []}, {"@graph": [0, None, {}], "@context": 1}, {"@graph": [[]] * 10_000}])]
NO_JSON = [b"", b"{", b"{}{}", b"\xff", b"{'role':'judge'}", b'{"role":NaN}']
REVISIONS = ["", "-1", "+1", "1.0", "1 1", "one", "9223372036854775808", "0" * 20]
LONG = b"x: " + b"a" * 16_384

# Whole messages: no route, no method, no caller, no revision, and the five refusals of a head.
MESSAGES: list[bytes] = [
    *(request(f"GET {path}") for path in ("/", "/sites", "/sites/", "/sites/r/", "/sites/R/report", "/sites/r/names", "/sites/r/pages",
                                          "/sites/r/pages/", "/sites/r/pages/home/", "/sites/r/pages/home/csv", "/sites/r/pages/home/languages",
                                          f"/sites/{'a' * 65}/report", "/sites/r/pages/%68ome")),
    *(request(f"{method} /sites/r", body=b"x") for method in ("GET", "POST", "DELETE", "PATCH", "HEAD", "put")),
    *(request(line, body=b"x") for line in ("PUT /sites/r/report", "GET /sites/r/import", "POST /sites/r/members/bob",
                                            "GET /sites/r/languages", "POST /sites/r/languages", "DELETE /sites/r/languages",
                                            "PUT /sites/r/pages/home/edits", "POST /sites/r/pages/home", "DELETE /sites/r/pages/home/outcomes")),
    *(request("GET /sites/r/report", caller=caller) for caller in (None, "Ann", "ann lee", "a" * 65, "")),
    request("GET /sites/r/report", fields=("x-caller: bob",)),
    *(request("DELETE /sites/r/pages/home", rev=rev) for rev in (None, *REVISIONS)),
    request("DELETE /sites/r/pages/home", rev=1, fields=("x-rev: 1",)),
    b"GET /sites/r/report HTTP/2.0\r\nx-caller: ann\r\n\r\n", b"PUT /sites/r HTTP/1.1\r\nx-caller: ann\r\ncontent-length: x\r\n\r\n",
    b"PUT /sites/r HTTP/1.1\r\nx-caller: ann\r\n" + LONG, b"PUT /sites/r HTTP/1.1\r\nx-caller: ann\r\ntransfer-encoding: chunked\r\n\r\n",
    b"PUT /sites/r HTTP/1.1\r\nx-caller: ann\r\n\r\n", b"PUT /sites/r HTTP/1.1\r\nx-caller: ann\r\ncontent-length: 8388609\r\n\r\n"]
