"""Pages, requests and the replies to them, as docs/use/http.md has them."""
from __future__ import annotations

import hashlib
import json

from silvervole.books import THIRTY
from silvervole.view.rules import read_rules

PAGE = {"url": "https://example.org/", "nodes": [
    {"n": 1, "p": None, "tag": "html", "attrs": [["lang", "en"]]}, {"n": 2, "p": 1, "tag": "title"},
    {"n": 3, "p": 2, "text": "Opening hours"}]}
EVIDENCE = "Opening hours\nhttps://example.org/"
DIGEST = hashlib.sha256(EVIDENCE.encode()).hexdigest()
JUDGEMENT = {"rule": "c4a8a4", "node": 1, "verdict": "passed", "digest": DIGEST}
# A person has to judge the title, and three rules pass.
SUMMARY = {"cantTell": 1, "failed": 0, "inapplicable": len(read_rules().of_book(THIRTY)) - 4, "passed": 3}


def compact(value: object) -> str:
    """JSON as the desk writes it."""
    return json.dumps(value, sort_keys=True, separators=(",", ":"))


def refused(number: int, name: str, **members: object) -> str:
    """The body of a refusal."""
    return compact({"number": number, "refused": name, **members})


def stored(page: str, rev: int) -> str:
    """The body of the reply to putting PAGE, or to an edit of it."""
    return compact({"page": page, "rev": rev, "summary": SUMMARY})


# A site's life of eight requests, for a site's name: the caller, the request, its revision and body, and the reply.
def life(site: str) -> list[tuple[str, str, int | None, object, tuple[int, str]]]:
    title = {"edits": [{"op": "setText", "node": 3, "text": f"Hours of {site}"}]}
    back = {"edits": [{"op": "setText", "node": 3, "text": "Opening hours"}]}
    home = f"/sites/{site}/pages/home"
    return [
        ("ann", f"PUT /sites/{site}", None, b"", (201, compact({"site": site}))),
        ("ann", f"PUT /sites/{site}/members/bob", None, {"role": "judge"}, (200, compact({"member": "bob", "role": "judge"}))),
        ("ann", f"PUT {home}", 0, PAGE, (200, stored("home", 1))),
        ("ann", f"POST {home}/edits", 1, title, (200, stored("home", 2))),
        ("ann", f"POST {home}/edits", 1, title, (409, refused(16, "StaleRevision", current=2))),
        ("ann", f"POST {home}/edits", 2, back, (200, stored("home", 3))),
        ("ann", f"POST {home}/judgements", None, JUDGEMENT, (403, refused(21, "SameHand"))),
        ("bob", f"POST {home}/judgements", None, JUDGEMENT, (200, compact({"node": 1, "outcome": "passed", "rule": "c4a8a4"}))),
        ("bob", f"DELETE {home}", 3, None, (403, refused(13, "NotAllowed", needed="editor"))),
        ("eve", f"GET {home}", None, None, (403, refused(13, "NotAllowed", needed="reader"))),
        ("ann", f"DELETE {home}", 3, None, (200, compact({"page": "home"}))),
        ("bob", f"GET {home}", None, None, (404, refused(14, "NoPage"))),
    ]
