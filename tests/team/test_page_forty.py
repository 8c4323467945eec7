"""The page to judge on before a desk by the book of forty: what its further rules leave to people."""
from __future__ import annotations

import json
from typing import Any, Iterator

import pytest

from serving import Serving

from ..samples import TABLE, element, words
from ..support import expect, same
from .asking import ask
from .packages import BROWSER, PROXY, needs
from .proxies import Proxy
from .reader import Reader, checked, signed_in
from .test_page_questions import press

pytestmark = needs(*PROXY, *BROWSER)

ANN = signed_in("ann")
PAGE = {"url": "https://shop.example/order", "nodes": [
    element(1, None, "html", lang="en"), element(2, 1, "head"), element(3, 2, "title"), words(4, 3, "Order"), element(5, 1, "body"),
    element(6, 5, "label", **{"for": "mail"}), words(7, 6, "Mail"), {**element(8, 5, "input", type="text", id="mail"), "f": "rvft"},
    element(9, 5, "img", src="/cat.png", alt="A cat"),
    {**element(10, 5, "button", **{"aria-label": "Save file"}), "f": "rvft"}, words(11, 10, "Save now")]}
# What is left to people: the rule, the node, the reason, and what the finding rests on.
OPEN = [("cc0f0a", 8, "judge-label", "textbox\nMail"), ("qt1vmo", 9, "judge-image", "img\nA cat"),
        ("2ee8b8", 10, "judge-label-in-name", "Save now\nSave file")]


@pytest.fixture
def desk() -> Iterator[Serving]:
    """The built desk by the book of forty while it serves, over memory."""
    with Serving(connections=1_000_000, book="forty") as serving:
        yield serving


def outcomes(proxy: Proxy) -> list[dict[str, Any]]:
    """The outcomes of the page, from the desk."""
    return list(json.loads(ask(proxy, "GET /sites/shop/pages/order/outcomes", None, ANN).body)["outcomes"])


def fill(proxy: Proxy) -> None:
    """A site of ann's with a judge, and the page."""
    same("the site", ask(proxy, "PUT /sites/shop", b"", ANN).status, 201)
    ask(proxy, "PUT /sites/shop/members/bob", {"role": "judge"}, ANN)
    same("the page", ask(proxy, "PUT /sites/shop/pages/order", PAGE, {**ANN, "x-rev": "0"}).status, 200)
    further = {rule for rule, *_ in OPEN}
    found = [(one["rule"], one["node"], one["reason"], one["evidence"]) for one in outcomes(proxy) if one["rule"] in further]
    same("what the desk leaves to people", found, OPEN)


def shows(reader: Reader, rule: str, node: int, reason: str, evidence: str) -> None:
    """A question has the rule's name and page, what the reason means and what to do, and the evidence."""
    told, advice = TABLE.rule(rule), TABLE.rule(rule).advice_for(reason, "cantTell")
    assert advice is not None
    reader.open(f"?site=shop&page=order&judge={rule}-{node}")
    same(f"{rule}: its name", reader.title(), told.name)
    text = reader.text("main")
    expect(f"{rule}: what it means and what to do", advice.means in text and advice.mends in text, text)
    expect(f"{rule}: its criteria", all(f"WCAG 2.2, {one.number} {one.name}" in text for one in told.criteria), text)
    same(f"{rule}: its evidence", reader.text(".facts pre"), evidence)
    same(f"{rule}: its link", reader.browser.execute_script("return document.querySelector('.meta a').href"), told.link)


def judges(reader: Reader, rule: str, node: int) -> None:
    """The question is answered by the keyboard, and the desk has the answer."""
    from selenium.webdriver.common.keys import Keys
    reader.open(f"?site=shop&page=order&judge={rule}-{node}")
    reader.tab_to("the verdict", "at.name === 'verdict'")
    reader.keys(Keys.SPACE)
    press(reader, "Judge, and go on")
    reader.wait("an answer", "return document.getElementById('status').textContent.startsWith('The desk has your judgement')")
    reader.settle()
    same(f"{rule}: the desk has it", [(one["outcome"], one["by"]) for one in outcomes(reader.proxy) if (one["rule"], one["node"]) == (rule, node)],
         [("passed", "bob")])


def test_page(browser: Any, sign_on: Proxy) -> None:
    """Each question is shown and judged as those of other rules are, and the findings of the page name the further rules."""
    fill(sign_on)
    reader = Reader(browser, sign_on)
    reader.sign_in("bob")
    reader.open("?site=shop&page=order")
    for rule, *_ in OPEN:
        expect(f"{rule} is among the findings", TABLE.rule(rule).name in reader.text("main"), reader.text("main")[:900])
    for rule, node, reason, evidence in OPEN:
        shows(reader, rule, node, reason, evidence)
        if rule == "qt1vmo":
            expect("the image's alternative text and address", "“A cat” /cat.png" in reader.text(".facts"), reader.text(".facts"))
        if rule == "2ee8b8":
            checked(reader, "a question on a label", "label")
        judges(reader, rule, node)
