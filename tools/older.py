"""What stands in the stores of earlier editions that are kept with the tests, and what a desk tells of it."""
from __future__ import annotations

import hashlib
import json
import os
from typing import Any

from serving import ROOT, Serving, reply_in, request, told

FOLDER = os.path.join(ROOT, "tests", "older")
# The editions of which a store is kept, and the last commit whose program writes it.
COMMITS = {1: "887c3dd2", 2: "a3f84f9d"}
SITES = {"acme": ("home", "library", "owned", "swiss"), "zeta": ("home",)}
FORMS = ("report", "earl", "csv")
VIEWS = ("", "/outcomes", "/report", "/earl", "/names")
TITLE = hashlib.sha256(b"Home\nhttps://example.org/").hexdigest()


def example(*path: str) -> Any:
    """A snapshot of the folder of examples."""
    with open(os.path.join(ROOT, "examples", *path), encoding="utf-8") as file:
        return json.load(file)


def element(number: int, parent: int | None, tag: str, **attrs: str) -> dict[str, Any]:
    """A row of a snapshot."""
    return {"n": number, "p": parent, "tag": tag, "attrs": [[name.replace("_", "-"), value] for name, value in attrs.items()]}


# A list and a button whose content stands elsewhere and is theirs by aria-owns, and a page in a language of three letters.
OWNED = {"url": "https://example.org/owned", "nodes": [
    element(1, None, "html", lang="en"), element(2, 1, "body"), element(10, 2, "div", role="list", aria_owns="x"),
    element(20, 2, "div", id="x", role="listitem"), element(30, 2, "button", aria_owns="t"), element(40, 2, "p", id="t"),
    {"n": 41, "p": 40, "text": "Send"}]}
SWISS = {"url": "https://example.org/swiss", "nodes": [element(1, None, "html", lang="gsw-CH"), element(2, 1, "body"), element(3, 2, "p", lang="haw"),
                                                       {"n": 4, "p": 3, "text": "Aloha"}]}


def requests() -> list[tuple[str, str, int | None, Any]]:
    """Who asks what, with which revision and body, to make what is kept: each page is put once, in the order of the revisions."""
    pages = {"home": example("smallest.json"), "library": example("library", "home.json"), "owned": OWNED, "swiss": SWISS}
    asked: list[tuple[str, str, int | None, Any]] = []
    for site, names in SITES.items():
        asked += [("ann", f"PUT /sites/{site}", None, b""), ("ann", f"PUT /sites/{site}/members/bob", None, {"role": "judge"})]
        asked += [("ann", f"PUT /sites/{site}/pages/{name}", 0, pages[name]) for name in names]
    judgement = {"rule": "c4a8a4", "node": 1, "digest": TITLE}
    asked += [("bob", "POST /sites/acme/pages/home/judgements", None, {**judgement, "verdict": verdict, "note": "It says where one is."})
              for verdict in ("failed", "passed")]
    return asked


def ask(desk: Serving, caller: str, line: str, rev: int | None = None, body: Any = b"") -> tuple[int | None, bytes]:
    """The status and body of the reply to a request over a connection of its own."""
    data = body if isinstance(body, bytes) else json.dumps(body).encode()
    with desk.connect() as link:
        link.sendall(request(line, caller, data, rev))
        return told(reply_in(link)) or (None, b"")


def fill(desk: Serving) -> list[str]:
    """Makes what is kept; the lines of what is refused."""
    replies = [(line, *ask(desk, caller, line, rev, body)) for caller, line, rev, body in requests()]
    return [f"{line}: {status} {body[:200]!r}" for line, status, body in replies if status not in (200, 201)]


def judge_owned(desk: Serving) -> bool:
    """Has bob judge what an earlier desk can't tell of the list that owns its item, and no later one asks: whether it could be judged."""
    rows = json.loads(ask(desk, "bob", "GET /sites/acme/pages/owned/outcomes")[1])["outcomes"]
    for row in rows:
        if row["rule"] == "bc4a75" and row["automatic"] == "cantTell":
            judgement = {"rule": row["rule"], "node": row["node"], "verdict": "failed", "digest": row["digest"]}
            return ask(desk, "bob", "POST /sites/acme/pages/owned/judgements", None, judgement)[0] == 200
    return False


def told_by(desk: Serving) -> dict[str, tuple[int | None, bytes]]:
    """All that a desk tells of the sites and their pages."""
    lines = [f"/sites/{site}/{form}" for site in SITES for form in FORMS]
    lines += [f"/sites/{site}/pages/{name}{view}" for site, names in SITES.items() for name in names for view in VIEWS]
    return {line: ask(desk, "ann", f"GET {line}") for line in lines}
