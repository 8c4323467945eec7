"""What a desk refuses, and how."""
from __future__ import annotations

from typing import Iterator

from soaking import snapshots
from soaking.knowing import Site, compact

Refusal = tuple[int, str]
# What is refused: its name, the line, the body and the revision of the request, and the refusal's status and name.
Asked = tuple[str, tuple[str, bytes, int | None], Refusal]

BROKEN = compact({"nodes": [snapshots.element(1, None, "html"), snapshots.element(3, 2, "p")], "url": "https://a.example/"})
NO_NODE = b'{"edits":[{"op":"remove","node":999999}]}'
NO_TARGET = compact({"rule": "c4a8a4", "node": 999_999, "verdict": "passed", "digest": "0" * 64})
# Bytes that are no request, each with its refusal.
BYTES: list[tuple[str, bytes, Refusal]] = [
    ("a long head", b"GET / HTTP/1.1\r\nx: " + b"a" * 16_384, (431, "HeadTooLarge")),
    ("a space first", b" GET / HTTP/1.1\r\n\r\n", (400, "BadHead")),
    ("no length", b"PUT /sites/a HTTP/1.1\r\nx-caller: ann\r\n\r\n", (411, "LengthRequired")),
    ("chunks", b"PUT /sites/a HTTP/1.1\r\ntransfer-encoding: chunked\r\n\r\n", (501, "TransferEncoding")),
]


def of_site(site: Site, page: bytes) -> Iterator[Asked]:
    """Requests that a site refuses, with a page that it would take."""
    home = f"PUT {site.path('home')}"
    rev = site.pages["home"].rev if "home" in site.pages else 0
    yield "site again", (f"PUT {site.path()}", b"", None), (409, "SiteExists")
    yield "stale put", (home, page, site.counter + 7), (409, "StaleRevision")
    yield "broken tree", (home, BROKEN, rev), (422, "TreeFault")
    yield "no snapshot", (home, b"[]", 0), (422, "BadShape")
    yield "no JSON", (home, page[:-1], 0), (400, "BadJson")
    yield "no UTF-8", (home, page.replace(b"html", b"ht\xffml", 1), 0), (400, "BadJson")
    yield "no route", (f"GET {site.path()}/none", b"", None), (404, "NoRoute")
    yield "no site", ("GET /sites/nobody/report", b"", None), (404, "NoSite")


def of_page(site: Site, name: str) -> Iterator[Asked]:
    """Requests that one of the site's pages refuses."""
    edits, rev = f"POST {site.path(name, '/edits')}", site.pages[name].rev
    yield "no node", (edits, NO_NODE, rev), (422, "EditFault")
    yield "no edit", (edits, b'{"edits":[{"op":"fly"}]}', rev), (422, "BadShape")
    yield "stale drop", (f"DELETE {site.path(name)}", b"", site.counter + 7), (409, "StaleRevision")
    yield "no target", (f"POST {site.path(name, '/judgements')}", NO_TARGET, None), (404, "NoTarget")
