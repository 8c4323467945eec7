"""A desk of one page that stands in for the built one: it tells the page and its outcomes, and takes judgements as docs/use/http.md says."""
from __future__ import annotations

import hashlib
import http.server
import json
import threading
from dataclasses import dataclass, field
from typing import Any

from .samples import element, words

HOST = "127.0.0.1"
ADDRESS = "https://library.example/rooms"
ROLES = {"ann": "owner", "bob": "judge", "cyd": "judge", "eve": "editor", "rea": "reader"}
NUMBERS = {"NoSite": (404, 11), "NotAllowed": (403, 13), "NoPage": (404, 14), "NoTarget": (404, 19), "NotOpen": (409, 20), "SameHand": (403, 21),
           "EvidenceMoved": (409, 22)}


def rooms() -> dict[str, Any]:
    """A page of three headings, two links and a drawing."""
    return {"url": ADDRESS, "nodes": [
        element(1, None, "html", lang="en"), element(2, 1, "head"), element(3, 2, "title"), words(4, 3, "Rooms"), element(5, 1, "body"),
        element(6, 5, "main", id="main"), element(7, 6, "h1"), words(8, 7, "Rooms to read in"),
        element(9, 6, "h2", **{"class": "t"}), words(10, 9, "Ground floor"),
        element(11, 6, "h2", id="attic", **{"@click": "open()"}), words(12, 11, "Attic"), element(13, 6, "p"),
        element(14, 13, "a", href="/a"), words(15, 14, "More"), words(16, 13, " or "), element(17, 13, "a", href="/b"), words(18, 17, "less"),
        {**element(19, 13, "linearGradient", viewBox="0"), "ns": "svg"},
        element(20, 13, "o:p")]}


@dataclass
class Row:
    """An outcome as the rule finds it."""

    rule: str
    node: int
    automatic: str
    evidence: str
    reason: str = "ok"

    @property
    def digest(self) -> str:
        """The digest of the evidence."""
        return hashlib.sha256(self.evidence.encode("utf-8")).hexdigest()


def rows() -> list[Row]:
    """The outcomes of the page."""
    return [Row("2779a5", 1, "passed", "Rooms"), Row("c4a8a4", 1, "cantTell", f"Rooms\n{ADDRESS}", "judge-title"),
            Row("c487ae", 14, "passed", "More"), Row("ffd0e9", 7, "passed", "heading\nRooms to read in"),
            Row("b49b2e", 7, "cantTell", "heading\nRooms to read in", "judge-heading"), Row("b49b2e", 9, "cantTell", "heading\nGround floor", "judge-heading"),
            Row("b49b2e", 11, "cantTell", "heading\nAttic", "judge-heading"), Row("047fe0", 1, "cantTell", "7 9 11", "judge-heading-start"),
            Row("cf77f2", 1, "cantTell", "", "merged")]


@dataclass
class DeskOfOnePage:
    """The desk, which listens within a with statement. What was asked is noted as method, path and body."""

    name: str = "rooms"
    page: dict[str, Any] = field(default_factory=rooms)
    rows: list[Row] = field(default_factory=rows)
    revision: int = 3
    sender: str = "ann"
    judgements: list[dict[str, Any]] = field(default_factory=list)
    asked: list[tuple[str, str, bytes]] = field(default_factory=list)
    # Called before each request is answered.
    before: Any = None

    @property
    def path(self) -> str:
        """The page's path."""
        return f"/sites/acme/pages/{self.name}"

    def counting(self, row: Row) -> dict[str, Any] | None:
        """The judgement that counts for a row: the last on its evidence."""
        of_row = [one for one in self.judgements if (one["rule"], one["node"], one["digest"]) == (row.rule, row.node, row.digest)]
        return of_row[-1] if of_row and row.automatic == "cantTell" and row.reason != "merged" else None

    def outcomes(self) -> list[dict[str, Any]]:
        """The rows as the desk tells them."""
        told = []
        for row in self.rows:
            judged = self.counting(row) or {"verdict": row.automatic, "by": ""}
            told.append({"automatic": row.automatic, "by": judged["by"], "digest": row.digest, "evidence": row.evidence, "node": row.node,
                         "outcome": judged["verdict"], "reason": row.reason, "rule": row.rule})
        return told

    def judge(self, caller: str, body: dict[str, Any]) -> dict[str, Any] | tuple[str, dict[str, Any]]:
        """The reply to a judgement, or the refusal with its members."""
        if ROLES.get(caller) not in ("owner", "judge"):
            return "NotAllowed", {"needed": "judge"}
        row = next((one for one in self.rows if (one.rule, one.node) == (body["rule"], body["node"])), None)
        if row is None:
            return "NoTarget", {}
        if row.automatic != "cantTell":
            return "NotOpen", {"automatic": row.automatic}
        if caller == self.sender:
            return "SameHand", {}
        if body["digest"] != row.digest:
            return "EvidenceMoved", {"current": row.digest}
        judgement = {**body, "by": caller}
        of_node = [one for one in self.judgements if (one["rule"], one["node"]) == (body["rule"], body["node"])]
        if not of_node or of_node[-1] != judgement:
            self.judgements.append(judgement)
        return {"node": body["node"], "outcome": body["verdict"], "rule": body["rule"]}

    def take(self, caller: str, body: dict[str, Any]) -> dict[str, Any] | tuple[str, dict[str, Any]]:
        """The reply to EARL in the desk's form, or the refusal with its members."""
        if ROLES.get(caller) not in ("owner", "judge"):
            return "NotAllowed", {"needed": "judge"}
        if caller == self.sender:
            return "SameHand", {}
        fates = {"added": 0, "known": 0, "skipped": 0}
        for one in body["@graph"]:
            fates[self.fate(caller, one)] += 1
        return fates

    def fate(self, caller: str, one: dict[str, Any]) -> str:
        """What becomes of an assertion."""
        digest, _, note = one["earl:result"]["earl:info"].partition(" ")
        judgement = {"rule": one["earl:test"]["@id"].removeprefix("urn:act-rule:"), "node": int(one["earl:result"]["earl:pointer"].split()[1]),
                     "verdict": one["earl:result"]["earl:outcome"]["@id"].removeprefix("earl:"), "digest": digest, "note": note, "by": caller}
        row = next((one for one in self.rows if (one.rule, one.node) == (judgement["rule"], judgement["node"])), None)
        if one["earl:subject"]["@id"] != self.page["url"] or row is None or row.automatic != "cantTell" or digest != row.digest:
            return "skipped"
        if judgement in self.judgements:
            return "known"
        self.judgements.append(judgement)
        return "added"

    def reply(self, method: str, path: str, caller: str, body: bytes) -> dict[str, Any] | tuple[str, dict[str, Any]]:
        """The reply to a request, or a refusal."""
        if caller not in ROLES:
            return "NotAllowed", {"needed": "reader"}
        if not path.startswith(self.path):
            return "NoPage", {}
        if method == "POST" and path == f"{self.path}/judgements":
            return self.judge(caller, json.loads(body))
        if method == "POST" and path == f"{self.path}/earl":
            return self.take(caller, json.loads(body))
        if path == f"{self.path}/outcomes":
            return {"inapplicable": ["de46e4", "97a4e1"], "outcomes": self.outcomes(), "rev": self.revision}
        return {"rev": self.revision, "snapshot": self.page}

    def answer(self, method: str, path: str, caller: str, body: bytes) -> tuple[int, bytes]:
        """The status and the body of the reply to a request."""
        self.asked.append((method, path, body))
        if self.before is not None:
            self.before(method, path)
        told = self.reply(method, path, caller, body)
        if isinstance(told, dict):
            return 200, json.dumps(told).encode("utf-8")
        name, members = told
        status, number = NUMBERS[name]
        return status, json.dumps({**members, "number": number, "refused": name}).encode("utf-8")

    def __enter__(self) -> DeskOfOnePage:
        desk = self

        class Handler(http.server.BaseHTTPRequestHandler):
            def handle_any(self) -> None:
                body = self.rfile.read(int(self.headers.get("content-length", 0)))
                status, data = desk.answer(self.command, self.path, self.headers.get("x-caller", ""), body)
                self.send_response(status)
                self.send_header("content-length", str(len(data)))
                self.end_headers()
                self.wfile.write(data)

            do_GET = do_POST = handle_any

            def log_message(self, *rest: object) -> None:
                """Says nothing."""

        self.server = http.server.ThreadingHTTPServer((HOST, 0), Handler)
        threading.Thread(target=self.server.serve_forever, daemon=True).start()
        self.address = f"http://{HOST}:{self.server.server_address[1]}"
        return self

    def __exit__(self, *rest: object) -> None:
        self.server.shutdown()
        self.server.server_close()

    @property
    def sent(self) -> list[tuple[str, int, str, str]]:
        """The judgements that were sent as EARL, each by rule, node, verdict and note."""
        graphs = [json.loads(body)["@graph"] for method, path, body in self.asked if method == "POST" and path == f"{self.path}/earl"]
        return [(one["earl:test"]["@id"][-6:], int(one["earl:result"]["earl:pointer"][5:]), one["earl:result"]["earl:outcome"]["@id"][5:],
                 one["earl:result"]["earl:info"][65:]) for graph in graphs for one in graph]
