"""The languages that a site accepts, in a real browser: who sets them, what becomes of the findings, and who is told why not."""
from __future__ import annotations

import json
from typing import Any

from serving import Serving

from ..support import expect, same
from .asking import ask
from .packages import BROWSER, PROXY, needs
from .proxies import Proxy
from .reader import Reader, checked, signed_in
from .test_page_views import follow, row

pytestmark = needs(*PROXY, *BROWSER)

ANN = signed_in("ann")
# A page in Swiss German with a word in Hawaiian.
HOME = [row(1, None, "html", lang="gsw-CH"), row(2, 1, "body"), row(3, 2, "h1"), row(4, 3, " Grüezi"), row(5, 2, "p", lang="HAW"), row(6, 5, " Aloha")]
OPEN, PASSED = ("cantTell", "three-letter"), ("passed", "ok")
FIELD = "return document.getElementById('languages')?.value ?? null"
SHOWN = "return [...document.querySelectorAll('.subtags li')].map((one) => one.innerText)"


def fill(proxy: Proxy) -> None:
    """A site of ann's with a judge, a reader, and a page in two languages of three letters."""
    same("the site", ask(proxy, "PUT /sites/valley", b"", ANN).status, 201)
    for name, role in (("bob", "judge"), ("rea", "reader")):
        make_member(proxy, name, role)
    page = {"url": "https://valley.example/", "nodes": HOME}
    same("the page", ask(proxy, "PUT /sites/valley/pages/home", page, {**ANN, "x-rev": "0"}).status, 200)


def make_member(proxy: Proxy, name: str, role: str) -> None:
    """Gives a person a role."""
    same(f"{name} is {role}", ask(proxy, f"PUT /sites/valley/members/{name}", {"role": role}, ANN).status, 200)


def spoken(proxy: Proxy) -> dict[str, tuple[str, str]]:
    """What is said of the page's language, and of its part's."""
    rows: list[dict[str, Any]] = json.loads(ask(proxy, "GET /sites/valley/pages/home/outcomes", None, ANN).body)["outcomes"]
    return {one["rule"]: (one["outcome"], one["reason"]) for one in rows if one["rule"] in ("bf051a", "de46e4")}


def send(reader: Reader, text: str | None = None) -> None:
    """Writes a list in place of what the field holds, and sends it, by the keyboard."""
    from selenium.webdriver.common.keys import Keys
    if text is not None:
        reader.tab_to("the list", "at.id === 'languages'")
        reader.browser.execute_script("document.activeElement.select()")
        reader.keys(text or Keys.DELETE)
    reader.tab_to("the button", "at.type === 'submit'")
    reader.keys(Keys.ENTER)
    reader.wait("an answer", "return document.querySelector('.told') || document.getElementById('status').textContent.startsWith('The desk has')")


def is_set(reader: Reader, what: str, languages: list[str], page: tuple[str, str], part: tuple[str, str]) -> None:
    """Expects the desk to have a list, the view to say so, and the findings to be these."""
    counted = f"{len(languages)} language{'' if len(languages) == 1 else 's'}"
    reader.settle()
    same(f"{what}: it is said", reader.text("#status"), f"The desk has the list: {counted}. It audited 1 page under it.")
    same(f"{what}: it is shown", reader.browser.execute_script(SHOWN), languages)
    same(f"{what}: the findings", spoken(reader.proxy), {"bf051a": page, "de46e4": part})
    reader.open("?site=valley&show=languages")
    same(f"{what}: it is shown later", [reader.browser.execute_script(SHOWN), reader.browser.execute_script(FIELD)], [languages, " ".join(languages)])


def finds_the_way(reader: Reader) -> None:
    """An owner comes from the site to its languages, of which none is known."""
    reader.sign_in("ann")
    reader.open("?site=valley")
    follow(reader, "Languages that this site accepts", "Languages of valley")
    expect("what is known", "does not tell which list it has, and from this browser you set none yet" in reader.text("main"), reader.text("main"))
    same("nothing stands in the field", reader.browser.execute_script(FIELD), "")
    checked(reader, "languages")
    same("the findings are open", spoken(reader.proxy), {"bf051a": OPEN, "de46e4": OPEN})


def isnt_sent(reader: Reader) -> None:
    """Lists that the desk wouldn't take aren't sent."""
    for text, says in (("gsw GSW", "Entry 2, “GSW”, is not three small letters."), ("gsw, haw gsw", "Entry 3, “gsw”, stands there twice."),
                       ("de", "Entry 1, “de”, is not three small letters.")):
        send(reader, text)
        same(f"{text}: what is said", reader.text(".told"), f"{says} Nothing was sent.")
        same(f"{text}: it stays in the field", reader.browser.execute_script(FIELD), text)
    checked(reader, "a list of another form")
    same("the findings are open", spoken(reader.proxy), {"bf051a": OPEN, "de46e4": OPEN})


def sets_the_list(reader: Reader) -> None:
    """An owner sets the list, another one, and none."""
    send(reader, "gsw, haw")
    is_set(reader, "two", ["gsw", "haw"], PASSED, PASSED)
    checked(reader, "a list that is set", "languages")
    send(reader, "haw")
    is_set(reader, "one", ["haw"], OPEN, PASSED)
    send(reader, "")
    is_set(reader, "none", [], OPEN, OPEN)


def is_refused(reader: Reader) -> None:
    """Who isn't owner is told so, and isn't offered the form any more, until they say that they may."""
    from selenium.webdriver.common.keys import Keys
    for name in ("bob", "rea"):
        reader.sign_in(name)
        reader.open("?site=valley&show=languages")
        send(reader, "gsw")
        same(f"{name} is told why not", reader.text(".told"), "You are not allowed to do this on this site: it takes an owner. What you typed is still here.")
        same(f"what {name} typed is there", reader.browser.execute_script(FIELD), "gsw")
        checked(reader, f"{name} may not")
        reader.open("?site=valley&show=languages")
        expect(f"{name} isn't offered the form", "You can look at this, and not change it: on valley that takes an owner." in reader.text("main")
               and reader.browser.execute_script(FIELD) is None, reader.text("main"))
        checked(reader, f"{name} isn't offered the form")
    same("nothing changed", spoken(reader.proxy), {"bf051a": OPEN, "de46e4": OPEN})
    make_member(reader.proxy, "rea", "owner")
    reader.tab_to("the button", "at.innerText === 'I have that role now'")
    reader.keys(Keys.ENTER)
    reader.wait("the form", "return document.getElementById('languages')")
    send(reader, "gsw")
    is_set(reader, "a new owner", ["gsw"], PASSED, OPEN)
    reader.sign_in("eve")
    reader.open("?site=valley&show=languages")
    expect("a stranger is told so", "it takes a reader" in reader.text(".told"), reader.text())


def comes_from_a_finding(reader: Reader) -> None:
    """From a finding on a language of three letters one comes to the list with it; from others there is no such way."""
    reader.sign_in("rea")
    reader.open("?site=valley&page=home&judge=b49b2e-3")
    expect("no way from a heading", "accept the language" not in reader.text("main"), reader.text("main"))
    reader.open("?site=valley&page=home&judge=de46e4-5")
    checked(reader, "a language to judge")
    follow(reader, "Have valley accept the language haw", "Languages of valley")
    same("it stands in the field behind the others", reader.browser.execute_script(FIELD), "gsw haw")
    send(reader)
    is_set(reader, "one more", ["gsw", "haw"], PASSED, PASSED)


def desk_is_away(reader: Reader) -> None:
    """What was typed stays while the desk can't be asked, and is sent later."""
    reader.open("?site=valley&show=languages")
    reader.browser.execute_cdp_cmd("Network.setBlockedURLs", {"urls": ["*/languages"]})
    send(reader, "nds haw")
    expect("the desk is away", "The desk is away" in reader.text(".told"), reader.text(".told"))
    reader.browser.execute_cdp_cmd("Network.setBlockedURLs", {"urls": []})
    same("what was typed is there", reader.browser.execute_script(FIELD), "nds haw")
    send(reader)
    reader.wait("the answer", "return document.getElementById('status').textContent.startsWith('The desk has')")
    is_set(reader, "sent later", ["nds", "haw"], OPEN, PASSED)


def test_languages(browser: Any, desk: Serving, sign_on: Proxy) -> None:
    """A site's languages, by the keyboard, in each state of their view."""
    fill(sign_on)
    reader = Reader(browser, sign_on)
    for part in (finds_the_way, isnt_sent, sets_the_list, is_refused, comes_from_a_finding, desk_is_away):
        part(reader)
