"""A page whose ways to bypass blocks are missing or to judge: beneath their composite, in a real browser."""
from __future__ import annotations

from typing import Any

from ..support import expect, same
from .asking import ask
from .packages import BROWSER, PROXY, needs
from .proxies import Proxy
from .reader import Reader, checked, signed_in
from .test_page_views import row

pytestmark = needs(*PROXY, *BROWSER)

ANN = signed_in("ann")
# It has a heading and a link, and neither landmark, skip link nor a part that folds away.
PAGE = [row(1, None, "html", lang="en"), row(2, 1, "head", ""), row(3, 2, "title", ""), row(4, 3, " Books", ""), row(5, 1, "body"),
        row(6, 5, "h1"), row(7, 6, " Books"), row(8, 5, "a", "rvft", href="/"), row(9, 8, " Home")]
# The rules of each section, those beneath the composite with their outcomes, and the options of the choice of a rule.
SECTIONS = """return Object.fromEntries([...document.querySelectorAll('section.outcome')].map((section) => [section.getAttribute('aria-labelledby'),
  [...section.querySelectorAll('.rule > h3')].map((one) => one.firstChild.data)]))"""
MERGED = "return [...document.querySelectorAll('.rule > .merged')].map((one) => one.querySelector('strong').innerText)"
CHOICES = "return [...document.querySelectorAll('select[name=rule] option')].map((one) => one.value).filter(Boolean)"
COMPOSITE = "Bypass Blocks of Repeated Content"
BENEATH = ["For a person to judge: Document has heading for non-repeated content", "Failed: Document has a landmark with non-repeated content",
           "Failed: Document has an instrument to move focus to non-repeated content", "Failed: Block of repeated content is collapsible"]
ALONE = ["2779a5", "c4a8a4", "b5c3f8", "bf051a", "c487ae", "ffd0e9", "b49b2e", "cf77f2"]


def test_merged(browser: Any, sign_on: Proxy) -> None:
    """None of the four stands among what failed, the composite has them beneath it, and the site's sums say what they count."""
    ask(sign_on, "PUT /sites/town", b"", ANN)
    page = {"url": "https://town.example/books", "nodes": PAGE}
    same("the page", ask(sign_on, "PUT /sites/town/pages/books", page, {**ANN, "x-rev": "0"}).status, 200)
    reader = Reader(browser, sign_on)
    reader.sign_in("ann")
    reader.open("?site=town&page=books")
    sections = browser.execute_script(SECTIONS)
    same("nothing failed", sorted(sections), ["cantTell", "passed"])
    expect("the composite is to judge", sections["cantTell"][-1] == COMPOSITE and len(sections["cantTell"]) == 3, sections)
    same("what stands beneath it", browser.execute_script(MERGED), BENEATH)
    same("the choice of a rule", browser.execute_script(CHOICES), ALONE)
    checked(reader, "a composite")
    reader.open("?site=town")
    said = reader.text("main")
    expect("a site says that its sums count each rule", "3 failed on books" in said and "which count each rule" in said, said)
