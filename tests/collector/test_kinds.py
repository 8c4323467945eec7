"""What isn't an HTML page, and pages that moved on."""
from __future__ import annotations

import json
import os
from typing import Any

from silvervole.collect.ends import End

from ..support import collect_here, expect, page, refused, refused_here, same

TYPES = {
    "/plain.txt": "text/plain", "/data.json": "application/json", "/data.xml": "application/xml",
    "/drawing.svg": "image/svg+xml", "/dot.png": "image/png", "/paper.pdf": "application/pdf",
    "/archive.zip": "application/zip", "/sent.html": "text/html", "/bad.xhtml": "application/xhtml+xml",
}
WRITTEN = ("--url", "https://kinds.example/")


def test_kinds(browser: Any, base: str, folder: str) -> None:
    """Each other kind is refused, and its type is in the line."""
    for path, kind in TYPES.items():
        refused_here(browser, f"{path} is refused", End.NOT_HTML, kind, f"{base}{path}")
    refused_here(browser, "a download of a page says so", End.NOT_HTML, "download", f"{base}/sent.html")
    refused_here(browser, "a fault of XHTML says where", End.NOT_HTML, "line 1", f"{base}/bad.xhtml")
    expect("a page in XHTML is taken", '"tag":"html"' in collect_here(browser, f"{base}/good.xhtml").text)
    for name, kind in (("notes.txt", "text/plain"), ("archive.zip", "application/zip"), ("page", "text/plain")):
        path = os.path.join(folder, name)
        with open(path, "w", encoding="utf-8") as file:
            file.write("<p>x")
        refused_here(browser, f"a file {name} is refused", End.NOT_HTML, kind, path, *WRITTEN)
    refused("the command refuses a picture", End.NOT_HTML, "image/png", f"{base}/dot.png")


def test_moved(browser: Any, base: str) -> None:
    """With --url a page that moved on is refused, and both addresses are in the line."""
    for path, target, words in (
            ("/moved", "/home.html?from=moved", ()), ("/refresh", "/good.html", ()), ("/script", "/good.html", ()),
            ("/renamed", "/renamed?by=script", ()), ("/refresh-later", "/good.html", ("--settle", "4000"))):
        refused_here(browser, f"{path} moved on", End.MOVED, f"{base}{path} moved on to {base}{target}", f"{base}{path}", *WRITTEN, *words)
    expect("--follow takes the page that it moved on to", '"good"' in collect_here(browser, f"{base}/script", *WRITTEN, "--follow").text)
    same("without --url the last address is written", json.loads(collect_here(browser, f"{base}/moved").text)["url"],
         f"{base}/home.html?from=moved")
    expect("a fragment is no move", collect_here(browser, f"{base}/fragment", *WRITTEN).text.startswith('{"url":"https://kinds.example/"'))
    expect("a refresh that comes later than the snapshot is none", '"old"' in collect_here(browser, f"{base}/refresh-much-later", *WRITTEN).text)
    with page("<script>location.href = 'about:blank'</script>") as path:
        refused_here(browser, "a file that moved on to no page", End.LOAD, "shows no page", path, *WRITTEN)


def test_charsets(browser: Any, base: str) -> None:
    """What docs/use/collecting.md says of UTF-8 that isn't declared."""
    with page(whole="<!DOCTYPE html><title>t</title><p>\u00e9t\u00e9") as path:
        expect("Chromium guesses the charset of a file that has none", "\u00e9t\u00e9" in collect_here(browser, path, *WRITTEN).text)
    expect("a server's page without a charset is read as windows-1252",
           "\u00c3\u00a9t\u00c3\u00a9" in collect_here(browser, f"{base}/no-charset").text)
