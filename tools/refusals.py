"""Requests that the desk refuses, each with its refusal, and what has to be kept before: for tools/clients and tools/test-api."""
from __future__ import annotations

import hashlib
import json
from typing import Any

from serving import Serving, reply_in, request

PAGE: dict[str, Any] = {"url": "https://example.org/", "nodes": [
    {"n": 1, "p": None, "tag": "html", "attrs": [["lang", "en"]]}, {"n": 2, "p": 1, "tag": "title"},
    {"n": 3, "p": 2, "text": "Hours"}]}
BROKEN: dict[str, Any] = {**PAGE, "nodes": [*PAGE["nodes"], {"n": 4, "p": 99, "tag": "p"}]}
# the digest of the evidence that the rule on descriptive titles has on that page
EVIDENCE = hashlib.sha256(b"Hours\nhttps://example.org/").hexdigest()
ELSEWHERE = "0" * 64


def text_of(edit: dict[str, Any]) -> dict[str, Any]:
    """Edits that change a text, with these members of the edit."""
    return {"edits": [{"op": "setText", "node": 3, **edit}]}


def judgement(rule: str = "c4a8a4", node: int = 1, digest: str = EVIDENCE) -> dict[str, Any]:
    """A judgement of the page's title, or of something else."""
    return {"rule": rule, "node": node, "verdict": "passed", "digest": digest}


# Who asks what, with which revision and body, and the refusal: its status, number, name and members.
REFUSED: list[tuple[Any, ...]] = [
    (None, "GET /", None, None, 404, 6, "NoRoute", {}),
    ("ann", "GET /sites/Acme/pages/home", None, None, 404, 6, "NoRoute", {}),
    ("ann", "GET /sites/r/names", None, None, 404, 6, "NoRoute", {}),
    ("ann", "GET /sites/r/pages/home/csv", None, None, 404, 6, "NoRoute", {}),
    ("ann", "POST /sites/r", None, b"", 405, 7, "WrongMethod", {}),
    ("ann", "PUT /sites/r/csv", None, b"", 405, 7, "WrongMethod", {}),
    ("ann", "GET /sites/r/languages", None, None, 405, 7, "WrongMethod", {}),
    ("ann", "DELETE /sites/r/pages/home/names", None, None, 405, 7, "WrongMethod", {}),
    ("ann", "PUT /sites/r/members", None, b"", 405, 7, "WrongMethod", {}),
    ("ann", "PUT /memberships", None, b"", 405, 7, "WrongMethod", {}),
    ("ann", "GET /memberships/ann", None, None, 404, 6, "NoRoute", {}),
    (None, "GET /memberships", None, None, 401, 8, "NoCaller", {}),
    ("Ann", "PUT /sites/other", None, b"", 401, 8, "NoCaller", {}),
    (None, "PUT /sites/other", None, b"", 401, 8, "NoCaller", {}),
    ("ann", "PUT /sites/r/members/bob", None, b"{", 400, 9, "BadJson", {}),
    ("ann", "PUT /sites/r/languages", None, {}, 422, 10, "BadShape", {"field": "languages", "place": 0}),
    ("ann", "PUT /sites/r/languages", None, {"languages": ["gsw", "GSW"]}, 422, 10, "BadShape", {"field": "languages", "place": 2}),
    ("ann", "PUT /sites/r/pages/home", None, PAGE, 422, 10, "BadShape", {"field": "x-rev", "place": 0}),
    ("ann", "PUT /sites/r/pages/home", 1, [], 422, 10, "BadShape", {"field": "body", "place": 0}),
    ("ann", "PUT /sites/r/pages/home", 1, {**PAGE, "url": "ftp://a/"}, 422, 10, "BadShape", {"field": "url", "place": 0}),
    ("ann", "POST /sites/r/import", None, {"pages": []}, 422, 10, "BadShape", {"field": "pages", "place": 0}),
    ("ann", "POST /sites/r/pages/home/earl", None, [], 422, 10, "BadShape", {"field": "body", "place": 0}),
    ("ann", "POST /sites/r/pages/home/earl", None, {"@graph": {}}, 422, 10, "BadShape", {"field": "@graph", "place": 0}),
    ("ann", "GET /sites/none/pages/home", None, None, 404, 11, "NoSite", {}),
    *(("ann", f"GET /sites/none/{shown}", None, None, 404, 11, "NoSite", {}) for shown in ("earl", "members", "pages/home/verdicts")),
    ("ann", "PUT /sites/none/languages", None, {"languages": []}, 404, 11, "NoSite", {}),
    ("ann", "PUT /sites/r", None, b"", 409, 12, "SiteExists", {}),
    ("bob", "PUT /sites/r/members/bob", None, {"role": "owner"}, 403, 13, "NotAllowed", {"needed": "owner"}),
    ("ann", "PUT /sites/r/members/ann", None, {"role": "reader"}, 403, 13, "NotAllowed", {"needed": "another owner"}),
    *((caller, "PUT /sites/r/languages", None, {"languages": ["gsw"]}, 403, 13, "NotAllowed", {"needed": "owner"}) for caller in ("bob", "rea", "eve")),
    ("bob", "DELETE /sites/r/pages/home", 1, None, 403, 13, "NotAllowed", {"needed": "editor"}),
    ("rea", "POST /sites/r/pages/home/judgements", None, judgement(), 403, 13, "NotAllowed", {"needed": "judge"}),
    ("rea", "POST /sites/r/pages/home/earl", None, {"@graph": []}, 403, 13, "NotAllowed", {"needed": "judge"}),
    ("eve", "GET /sites/r/pages/home", None, None, 403, 13, "NotAllowed", {"needed": "reader"}),
    *(("eve", f"GET /sites/r/{shown}", None, None, 403, 13, "NotAllowed", {"needed": "reader"})
      for shown in ("report", "earl", "csv", "members", "pages/home/report", "pages/home/earl", "pages/home/names", "pages/home/verdicts")),
    ("bob", "POST /sites/r/pages/none/earl", None, {"@graph": []}, 404, 14, "NoPage", {}),
    ("ann", "GET /sites/r/pages/none", None, None, 404, 14, "NoPage", {}),
    *(("ann", f"GET /sites/r/pages/none/{shown}", None, None, 404, 14, "NoPage", {}) for shown in ("report", "earl", "names", "verdicts")),
    ("ann", "PUT /sites/r/pages/home", 0, PAGE, 409, 16, "StaleRevision", {"current": 1}),
    ("ann", "POST /sites/r/import", None, {"pages": [{"page": "home", "rev": 7, "snapshot": PAGE}]}, 409, 16, "StaleRevision",
     {"current": 1, "page": "home"}),
    ("ann", "PUT /sites/r/pages/home", 1, BROKEN, 422, 17, "TreeFault", {"fault": 4, "node": 4}),
    ("ann", "POST /sites/r/import", None, {"pages": [{"page": "new", "rev": 0, "snapshot": BROKEN}]}, 422, 17, "TreeFault",
     {"fault": 4, "node": 4, "page": "new"}),
    ("ann", "POST /sites/r/pages/home/edits", 1, text_of({"node": 9, "text": ""}), 422, 18, "EditFault", {"index": 0, "kind": 1}),
    ("ann", "POST /sites/r/pages/home/edits", 1, text_of({"text": "a" * 65_537}), 422, 18, "EditFault",
     {"fault": 7, "index": 0, "kind": 8, "node": 3}),
    ("bob", "POST /sites/r/pages/home/judgements", None, judgement(node=9), 404, 19, "NoTarget", {}),
    ("bob", "POST /sites/r/pages/home/judgements", None, judgement(rule="2779a5"), 409, 20, "NotOpen", {"automatic": "passed"}),
    ("ann", "POST /sites/r/pages/home/judgements", None, judgement(), 403, 21, "SameHand", {}),
    ("ann", "POST /sites/r/pages/home/earl", None, {"@graph": []}, 403, 21, "SameHand", {}),
    ("bob", "POST /sites/r/pages/home/judgements", None, judgement(digest=ELSEWHERE), 409, 22, "EvidenceMoved", {"current": EVIDENCE}),
]


def asked(desk: Serving, caller: str | None, line: str, rev: int | None, body: Any) -> bytes:
    """The bytes of the reply to a request."""
    body = body if isinstance(body, bytes) or body is None else json.dumps(body).encode()
    with desk.connect() as connection:
        connection.sendall(request(line, caller, body or b"", rev))
        return reply_in(connection)


def prepare(desk: Serving) -> None:
    """Makes the site that the requests speak of."""
    asked(desk, "ann", "PUT /sites/r", None, b"")
    for user, role in (("bob", "judge"), ("rea", "reader")):
        asked(desk, "ann", f"PUT /sites/r/members/{user}", None, {"role": role})
    asked(desk, "ann", "PUT /sites/r/pages/home", 0, PAGE)


def fill(desk: Serving) -> None:
    """Puts pages in, until the site holds as many as it may."""
    for first in range(1, 500, 50):
        pages = [{"page": f"p{page}", "rev": 0, "snapshot": PAGE} for page in range(first, min(first + 50, 500))]
        asked(desk, "ann", "POST /sites/r/import", None, {"pages": pages})
