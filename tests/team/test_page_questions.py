"""Findings with the same evidence, which are one question; whose note it is, and who is offered a form; and a large page."""
from __future__ import annotations

import json
import os
from typing import Any

from serving import Serving

from ..support import expect, note, same
from .asking import ask
from .packages import BROWSER, PROXY, needs
from .proxies import RATE, Proxy
from .reader import LISTEN, Reader, checked, signed_in
from .test_page_views import follow, row, slow

pytestmark = needs(*PROXY, *BROWSER)

ANN = signed_in("ann")
MEMBERS = {"bob": "judge", "cid": "judge", "rea": "reader"}
NOTE = "Each says what stands below it."
SHELVES, MANY = 30, 130
MOST_ELEMENTS, TIMES = 4_000, 5
LINKS, HEADINGS = 1_600, 800
# When the page was shown, in milliseconds from its beginning, and how many elements it has.
SHOWN = "const [mark] = performance.getEntriesByName('shown'); return mark && [mark.startTime, document.querySelectorAll('*').length]"
# Marks the time at which the page is painted with what it shows.
WATCH = """
new MutationObserver((changes, observer) => {
  if (document.documentElement?.dataset.ready !== 'true') return;
  observer.disconnect();
  requestAnimationFrame(() => setTimeout(() => performance.mark('shown')));
}).observe(document, { attributes: true, subtree: true, attributeFilter: ['data-ready'] });
"""


def catalogue(headings: list[str], links: int = 0) -> dict[str, Any]:
    """A page of so many headings, the nodes of which have the numbers 11, 13 and so on, and of image links behind each."""
    rows = [row(1, None, "html", lang="en"), row(2, 1, "head", ""), row(3, 2, "title", ""), row(4, 3, " Catalogue", ""), row(5, 1, "body")]
    number = 11
    for text in headings:
        rows += [row(number, 5, "h2"), row(number + 1, number, f" {text}")]
        number += 2
        for place in range(links):
            rows += [row(number, 5, "a", href=f"/{number}"), row(number + 1, number, "img", src=f"/{number}-{place}.jpg", alt="Cover")]
            number += 2
    return {"url": "https://shop.example/catalogue", "nodes": rows}


def put(proxy: Proxy, page: str, body: dict[str, Any]) -> None:
    """Puts a page as ann."""
    same(f"the page {page}", ask(proxy, f"PUT /sites/shop/pages/{page}", body, {**ANN, "x-rev": "0"}).status, 200)


def fill(proxy: Proxy) -> None:
    """A site of ann's with members, and a page of a heading, thirty others that are alike, and two more."""
    same("the site", ask(proxy, "PUT /sites/shop", b"", ANN).status, 201)
    for name, role in MEMBERS.items():
        ask(proxy, f"PUT /sites/shop/members/{name}", {"role": role}, ANN)
    put(proxy, "list", catalogue(["Shop", *["Shelf"] * SHELVES, "Lamp", "Lamp"]))


def judged(proxy: Proxy, page: str = "list") -> list[int]:
    """The numbers of the nodes whose headings somebody judged."""
    outcomes = json.loads(ask(proxy, f"GET /sites/shop/pages/{page}/outcomes", None, ANN).body)["outcomes"]
    return [one["node"] for one in outcomes if one["rule"] == "b49b2e" and one["by"]]


def begin(reader: Reader, node: int, page: str = "list", note: str = NOTE) -> None:
    """Opens a heading to judge, and fills the form by the keyboard."""
    from selenium.webdriver.common.keys import Keys
    reader.open(f"?site=shop&page={page}&judge=b49b2e-{node}")
    reader.tab_to("the verdict", "at.name === 'verdict'")
    reader.keys(Keys.SPACE)
    reader.tab_to("the note", "at.id === 'note'")
    reader.browser.execute_script("document.activeElement.select()")
    reader.keys(note)


def press(reader: Reader, text: str) -> None:
    """Presses a button by the keyboard."""
    from selenium.webdriver.common.keys import Keys
    reader.tab_to(text, f"at.innerText === {json.dumps(text)}")
    reader.keys(Keys.ENTER)


def is_one_question(reader: Reader) -> None:
    """The page says how many questions it has; one is walked over its findings, and the note goes along."""
    reader.open("?site=shop&page=list")
    expect("questions and findings", "Judge 4 questions on 34 findings, one after another" in reader.text("main"), reader.text("main"))
    expect("what belongs together", reader.text("main").count("One question with 29 other findings.") == SHELVES, reader.text("main")[:600])
    begin(reader, 13)
    expect("how many it stands for", "This is one question on 30 findings with the same evidence. Shown is number 1." in reader.text(".places"), reader.text("main"))
    expect("what is sent", "Your answer is sent for each of these 30 findings." in reader.text("form"), reader.text("form"))
    checked(reader, "a question on many findings")
    follow(reader, "Number 2 of them", "Heading is descriptive")
    expect("the second", "h2, node 15" in reader.text("main"), reader.text("main"))
    same("the note goes along", reader.browser.execute_script("return document.getElementById('note').value"), NOTE)
    same("and the verdict", reader.browser.execute_script("return document.forms[0].verdict.value"), "passed")
    follow(reader, "Number 1 of them", "Heading is descriptive")
    follow(reader, "Leave it open, and go on", "Heading is descriptive")
    expect("the next question is another", "Lamp" in reader.text(".facts"), reader.text(".facts"))


def one_alone(reader: Reader) -> None:
    """An answer for one of them alone; what comes next is the rest of the question."""
    from selenium.webdriver.common.keys import Keys
    begin(reader, 15)
    reader.tab_to("the choice", "at.name === 'alone'")
    reader.keys(Keys.SPACE)
    press(reader, "Judge, and go on")
    reader.wait("the next", "return location.search.includes('b49b2e-17')")
    reader.settle()
    same("the desk has one", judged(reader.proxy), [15])
    expect("the rest is left", "one question on 29 findings" in reader.text(".places") and "Here is the next one." in reader.text("#status"), reader.text())


def stops_at_a_refusal(reader: Reader) -> None:
    """The first refusal ends it and says how many were taken; the note stays."""
    begin(reader, 13)
    edit = {"edits": [{"op": "setText", "node": 32, "text": "Shelves"}]}
    same("one of them is edited", ask(reader.proxy, "POST /sites/shop/pages/list/edits", edit, {**ANN, "x-rev": "1"}).status, 200)
    press(reader, "Judge, and go on")
    reader.wait("a refusal", "return document.querySelector('.told')")
    # The nodes 13 and 17 to 29 stand before 31, whose text was edited.
    same("how many were taken", reader.text(".told p"), "The page has changed since you opened it: what the rule looks at is not what you saw. "
         "The desk has 8 of 29 answers. Your note is kept.")
    same("so many has the desk", judged(reader.proxy), list(range(13, 31, 2)))
    checked(reader, "a refusal after some answers")
    press(reader, "Show the page as it is now")
    reader.wait("the new evidence", "return document.querySelector('.facts pre')?.innerText === 'heading\\nShelves'")
    same("the note is there", reader.browser.execute_script("return document.getElementById('note').value"), NOTE)


def is_stopped(reader: Reader) -> None:
    """Somebody stops it on its way, and then lets it go on."""
    begin(reader, 33)
    slow(reader, 400, -1)
    reader.browser.execute_script(LISTEN)
    press(reader, "Judge, and go on")
    reader.wait("some answers", "return document.querySelector('progress')?.value > 1")
    press(reader, "Stop")
    reader.wait("its end", "return document.querySelector('.told')")
    slow(reader, 0, -1)
    taken = len(judged(reader.proxy)) - 9
    same("it says how many", reader.text(".told p"), f"You stopped it. The desk has {taken} of 20 answers. Your note is kept.")
    expect("and not all", 1 < taken < 20, taken)
    checked(reader, "answers that were stopped")
    press(reader, "Judge, and go on")
    reader.wait("the question that was left", "return document.querySelector('.facts pre')?.innerText === 'heading\\nShelves'")
    reader.settle()
    same("the rest is there", len(judged(reader.proxy)), 29)
    expect("progress was said", any(text.startswith("Sending: The desk has ") for text in reader.browser.execute_script("return window.said")))


def shows_progress(reader: Reader) -> None:
    """While answers are sent, the page says how far it has come; whoever goes elsewhere stops it."""
    begin(reader, 73)
    slow(reader, 3_000, -1)
    press(reader, "Judge, and go on")
    reader.wait("how far it has come", "return document.querySelector('.sending')")
    checked(reader, "answers on their way")
    slow(reader, 0, -1)
    reader.wait("the next question", "return !location.search.includes('b49b2e-73')")
    reader.settle()
    same("both are there", judged(reader.proxy)[-2:], [73, 75])


def is_ones_own(reader: Reader) -> None:
    """A note is in nobody else's form."""
    note = "return document.getElementById('note').value"
    begin(reader, 11, note="Of bob alone")
    reader.sign_in("cid")
    reader.open("?site=shop&page=list&judge=b49b2e-11")
    same("another person's form", reader.browser.execute_script(f"{note} + document.forms[0].verdict.value"), "")
    begin(reader, 11, note="Of cid")
    reader.sign_in("bob")
    reader.open("?site=shop&page=list&judge=b49b2e-11")
    same("one's own note", reader.browser.execute_script(note), "Of bob alone")


def is_not_offered(reader: Reader) -> None:
    """Whose role was refused is offered no form, sees the finding and the note, and can say that the role is another now."""
    reader.sign_in("rea")
    begin(reader, 11)
    press(reader, "Judge, and go on")
    reader.wait("a refusal", "return document.querySelector('.told')")
    expect("it says why", "You are not allowed to do this on this site: it takes a judge. Your note is kept." in reader.text(".told"), reader.text(".told"))
    reader.open("?site=shop&page=list&judge=b49b2e-11")
    same("no form is offered", reader.browser.execute_script("return document.forms.length"), 0)
    expect("but why, the note and the evidence",
           all(text in reader.text("main") for text in ("on shop that takes a judge", NOTE, "heading\nShop")), reader.text("main"))
    checked(reader, "no form")
    reader.open("?site=shop&page=list")
    expect("on the page neither", "3 questions open. Judging on shop takes a judge." in reader.text("main") and "Judge 3 questions" not in reader.text("main")
           and "Look closer: h2, node 11" in reader.text("main"), reader.text("main")[:600])
    checked(reader, "a page for who may not judge")
    ask(reader.proxy, "PUT /sites/shop/members/rea", {"role": "judge"}, ANN)
    reader.open("?site=shop&page=list&judge=b49b2e-11")
    press(reader, "I have that role now")
    reader.wait("the form", "return document.getElementById('note')")
    press(reader, "Judge, and go on")
    reader.wait("that it is taken", "return document.getElementById('status').innerText.includes('has your judgement')")
    expect("the desk has it", 11 in judged(reader.proxy), judged(reader.proxy))


def put_large(reader: Reader) -> str:
    """Opens a page of very many findings some times, and says how soon it is shown."""
    put(reader.proxy, "large", catalogue([f"Shelf {number % 40}" for number in range(HEADINGS)], LINKS // HEADINGS))
    times = []
    for _ in range(TIMES):
        reader.open("?site=shop&page=large")
        milliseconds, elements = reader.wait("the time", SHOWN)
        times.append(milliseconds / 1000)
    return (f"a page of {LINKS} image links and {HEADINGS} headings: {elements} elements, shown after {min(times):.2f} to {max(times):.2f} s, "
            f"on a machine with a load of {os.getloadavg()[0]:.0f}")


def is_large(reader: Reader) -> None:
    """A page of very many findings is shown in parts."""
    reader.sign_in("bob")
    note(put_large(reader))
    expect("its elements", reader.browser.execute_script("return document.querySelectorAll('*').length") <= MOST_ELEMENTS)
    findings = "return document.querySelectorAll('.target').length"
    same("findings at a time", reader.browser.execute_script(findings), 100)
    expect("which ones", "Findings 1 to 100 of 4804." in reader.text(".places"), reader.text(".places"))
    checked(reader, "a part of many findings")
    follow(reader, "Last: 4801 to 4804", "Page large of shop")
    same("the last part", reader.browser.execute_script(findings), 4)
    follow(reader, "Before: 4701 to 4800", "Page large of shop")
    expect("their elements", reader.browser.execute_script("return document.querySelectorAll('*').length") <= MOST_ELEMENTS)
    reader.open("?site=shop&page=large&rule=23a2a8&from=150")
    expect("a part of one rule", "Findings 101 to 200 of 1600." in reader.text(".places")
           and "1600 findings, 100 of them here" in reader.text("main"), reader.text("main")[:900])
    expect("the elements of images", reader.browser.execute_script("return document.querySelectorAll('*').length") <= MOST_ELEMENTS)


def watching(browser: Any, proxy: Proxy) -> Reader:
    """Somebody at a site of ann's, whose browser marks when the page is shown."""
    fill(proxy)
    browser.execute_cdp_cmd("Page.addScriptToEvaluateOnNewDocument", {"source": WATCH})
    reader = Reader(browser, proxy)
    reader.sign_in("bob")
    return reader


def test_questions(browser: Any, sign_on: Proxy) -> None:
    """One question after another, by the keyboard."""
    reader = watching(browser, sign_on)
    for part in (is_one_question, one_alone, stops_at_a_refusal, is_stopped, shows_progress, is_ones_own, is_not_offered, is_large):
        part(reader)


def test_limit(browser: Any, desk: Serving) -> None:
    """More answers than the proxy takes at once: the page waits, and all are taken."""
    with Proxy("sign-on.conf", [desk.port], RATE) as proxy:
        fill(proxy)
        put(proxy, "many", catalogue(["Shelf"] * MANY))
        reader = Reader(browser, proxy)
        reader.sign_in("bob")
        begin(reader, 11, "many")
        press(reader, "Judge, and go on")
        reader.wait("its end", f"return document.getElementById('status').innerText.startsWith('The desk has your {MANY} answers.')")
        same("the desk has all", len(judged(proxy, "many")), MANY)
