"""Small pages with their reports, written by hand, and lists of findings made of them."""
from __future__ import annotations

import hashlib
import json
import pathlib
import subprocess
from typing import Any

from silvervole.formats.gathering import about_page, listed_page
from silvervole.formats.listing import Listing
from silvervole.view.outcomes import read_outcomes
from silvervole.view.page import read_page
from silvervole.view.report import read_report
from silvervole.view.rules import read_rules

ROOT = pathlib.Path(__file__).resolve().parent.parent
TABLE = read_rules()

# Three failures that count: a link, a picture and the composite, beneath which its four inputs failed.
SHOP = """page https://shop.example/
2779a5 node 1 passed ok
c4a8a4 node 1 cantTell judge-title
c487ae node 6 failed no-name
c487ae node 7 passed ok
23a2a8 node 9 failed no-name
047fe0 node 1 failed no-heading
b40fd1 node 1 failed no-landmark
ye5d6e node 1 failed no-skip-link
3e12e1 node 1 failed no-collapse
cf77f2 node 1 failed merged
b5c3f8 inapplicable
passed 2 failed 7 cantTell 1 inapplicable 1
"""
SHOP_HTML = """<!DOCTYPE html>
<html lang="en"><head>
<title>Shop</title></head>
<body>
<a id="cart" href="/cart"></a>
<a href="/books">Books</a>
<p>
<img src="a.png"></p></body></html>
"""
FAILURES = {("c487ae", 6), ("23a2a8", 9), ("cf77f2", 1)}


def element(number: int, parent: int | None, tag: str, **attributes: str) -> dict[str, Any]:
    """The row of an element."""
    return {"n": number, "p": parent, "tag": tag, "attrs": [list(pair) for pair in attributes.items()]}


def words(number: int, parent: int, text: str) -> dict[str, Any]:
    """The row of a text."""
    return {"n": number, "p": parent, "text": text}


def shop(title: str = "Shop", cart: str = "cart", before: int = 0) -> dict[str, Any]:
    """The shop's snapshot; with so many paragraphs put before its links, whose numbers move then."""
    more = [element(6 + place, 5, "p") for place in range(before)]
    return {"url": "https://shop.example/", "nodes": [
        element(1, None, "html", lang="en"), element(2, 1, "head"), element(3, 2, "title"), words(4, 3, title), element(5, 1, "body"), *more,
        element(6 + before, 5, "a", id=cart, href="/cart"), element(7 + before, 5, "a", href="/books"), words(8 + before, 7 + before, "Books"),
        element(9 + before, 5, "img", src="a.png")]}


def reply(*outcomes: tuple[str, int, str, str, str, str, str]) -> bytes:
    """A reply to outcomes of these: rule, node, automatic outcome, outcome, reason, judge and evidence."""
    rows = [{"rule": rule, "node": node, "automatic": automatic, "outcome": outcome, "reason": reason, "by": judge, "evidence": evidence,
             "digest": hashlib.sha256(evidence.encode("utf-8")).hexdigest()} for rule, node, automatic, outcome, reason, judge, evidence in outcomes]
    return json.dumps({"rev": 3, "inapplicable": [], "outcomes": rows}).encode("utf-8")


def listing_of(given: dict[str, Any], report: str | bytes, **about: Any) -> Listing:
    """The findings of a page by its text report, or by its reply to outcomes."""
    page = read_page(json.dumps(given).encode("utf-8"), "page.json")
    found = read_report(report.encode("utf-8"), "page.txt") if isinstance(report, str) else read_outcomes(report, "page.outcomes")
    return Listing((listed_page(about_page(page, found, **about), page, found, TABLE),))


def together(*listings: Listing) -> Listing:
    """The pages of more than one list in one."""
    return Listing(tuple(page for listing in listings for page in listing.pages))


def run(*command: object, stdin: str = "") -> tuple[int, str, str]:
    """The status, standard output and standard error of a program."""
    done = subprocess.run(list(map(str, command)), input=stdin, capture_output=True, text=True, check=False)
    return done.returncode, done.stdout, done.stderr
