"""Judgements from a file, in a real browser: what would be added, known and skipped is shown before anything is sent, of small and of large files."""
from __future__ import annotations

import json
import pathlib
from typing import Any

from serving import Serving

from ..support import expect, same
from .asking import ask
from .packages import BROWSER, PROXY, needs
from .proxies import Proxy
from .reader import Reader, checked, signed_in
from .test_page_views import DIGEST, HOME, follow

pytestmark = needs(*PROXY, *BROWSER)

ANN = signed_in("ann")
ADDRESS = "https://hill.example/"
VIEW = "?site=hill&page=home&show=earl"
PARTS = "return [...document.querySelectorAll('section > h2')].map((one) => one.innerText)"
LINES = "return [...document.querySelectorAll('section li')].map((one) => one.innerText)"


def fill(proxy: Proxy) -> None:
    """A site of ann's with a judge, a reader, and a page with a heading."""
    same("the site", ask(proxy, "PUT /sites/hill", b"", ANN).status, 201)
    for name, role in (("bob", "judge"), ("cyd", "judge"), ("rea", "reader")):
        same(f"{name} is {role}", ask(proxy, f"PUT /sites/hill/members/{name}", {"role": role}, ANN).status, 200)
    same("the page", ask(proxy, "PUT /sites/hill/pages/home", {"url": ADDRESS, "nodes": HOME}, {**ANN, "x-rev": "0"}).status, 200)


def entry(verdict: str = "passed", info: str = DIGEST, node: int = 3, rule: str = "b49b2e", subject: str = ADDRESS, mode: str = "manual") -> dict[str, Any]:
    """An entry of EARL in the desk's form, on the page's heading."""
    return {"earl:subject": {"@id": subject}, "earl:test": f"urn:act-rule:{rule}", "earl:mode": f"earl:{mode}",
            "earl:result": {"earl:outcome": {"@id": f"earl:{verdict}"}, "earl:pointer": f"node {node}", "earl:info": info}}


def heading(proxy: Proxy) -> tuple[str, str]:
    """The outcome of the heading, and who judged it."""
    rows: list[dict[str, Any]] = json.loads(ask(proxy, "GET /sites/hill/pages/home/outcomes", None, ANN).body)["outcomes"]
    return next((one["outcome"], one["by"]) for one in rows if one["rule"] == "b49b2e")


def choose(reader: Reader, folder: pathlib.Path, data: object) -> int:
    """Chooses a file with this content, and waits until it is shown; its size."""
    path = folder / f"judged-{len(list(folder.iterdir()))}.jsonld"
    path.write_text(data if isinstance(data, str) else json.dumps(data), encoding="utf-8")
    reader.tab_to("the field", "at.id === 'file'")
    reader.browser.execute_script("document.getElementById('status').textContent = ''; document.querySelector('.told')?.remove()")
    reader.browser.find_element("id", "file").send_keys(str(path))
    reader.wait("the file is read", "return document.querySelector('.told') || document.getElementById('status').textContent.startsWith('Of the file')")
    return path.stat().st_size


def send(reader: Reader) -> None:
    """Sends what would be added, by the keyboard."""
    from selenium.webdriver.common.keys import Keys
    reader.tab_to("the button", "at.innerText?.startsWith('Send ')")
    reader.keys(Keys.ENTER)
    reader.wait("an answer", "return document.querySelector('.told') || document.getElementById('status').textContent.startsWith('The desk added')")


MIXED = [entry(info=f"{DIGEST} It says when."), entry(info="0" * 64), entry(info="0" * 64), entry(node=99), entry(mode="automatic"), entry(subject="https://hill.example/x"),
         entry(rule="ffd0e9"), 0]


def is_shown_first(reader: Reader, folder: pathlib.Path) -> None:
    """A judge comes from the findings to a file, sees what becomes of each entry, and sends what is new."""
    reader.sign_in("bob")
    reader.open("?site=hill&page=home")
    follow(reader, "Judgements from a file", "Judgements of page home from a file")
    checked(reader, "no file yet")
    choose(reader, folder, {"@graph": MIXED})
    same("what is said", reader.text("#status"), "Of the file 1 would be added, 0 known, 7 skipped.")
    same("the parts", reader.browser.execute_script(PARTS), ["Would be added 1", "Skipped 7"])
    lines = reader.browser.execute_script(LINES)
    first = lines[0]
    expect("what would be added", first.startswith("passed: Heading is descriptive: ") and "node 3" in first and first.endswith("It says when."), first)
    same("what is skipped", lines[1:], [
        "2 entries: what the rule looks at is something else by now.", "1 entry: the rule has no outcome there.", "1 entry: it was not made by a person.",
        "1 entry: it is about another page.", "1 entry: the rule decides it by itself.", "1 entry: it names no page."])
    same("nothing was sent", heading(reader.proxy), ("cantTell", ""))
    checked(reader, "a file that was chosen")
    send(reader)
    same("what the desk says", reader.text("#status"), "The desk added 1, knew 0, and skipped 0.")
    same("it counts", heading(reader.proxy), ("passed", "bob"))
    same("the parts then", reader.browser.execute_script(PARTS), ["Known already 1", "Skipped 7"])
    checked(reader, "a file that was sent")
    choose(reader, folder, {"@graph": MIXED})
    same("chosen again", reader.text("#status"), "Of the file 0 would be added, 1 known, 7 skipped.")
    expect("nothing is to be sent", "Send" not in reader.text("main"), reader.text("main"))


def is_no_file(reader: Reader, folder: pathlib.Path) -> None:
    """Files that are none are told so."""
    for data, says in (("no JSON", "is no EARL in JSON-LD"), ({"@graph": {}}, "is no EARL in JSON-LD"), ([], "is no EARL in JSON-LD"),
                       ({"@graph": [0] * 10_001}, "has 10001 entries, and the desk takes 10000 at once")):
        choose(reader, folder, data)
        expect(f"{says}: it is said", says in reader.text(".told"), reader.text(".told"))
    checked(reader, "a file that is none")


def is_refused(reader: Reader, folder: pathlib.Path) -> None:
    """Who sent the page's revision, or isn't judge, is told so, and nothing is added."""
    for name, says in (("ann", "You sent this revision of the page yourself, so somebody else has to judge it."),
                       ("rea", "You are not allowed to do this on this site: it takes a judge.")):
        reader.sign_in(name)
        reader.open(VIEW)
        choose(reader, folder, {"@graph": [entry("failed")]})
        send(reader)
        same(f"{name} is told why not", reader.text(".told"), f"{says} Nothing was added.")
        checked(reader, f"{name} may not")
    reader.open(VIEW)
    expect("rea isn't offered the field", "You can't add judgements here: on hill that takes a judge." in reader.text("main")
           and not reader.browser.execute_script("return document.getElementById('file')"), reader.text("main"))
    checked(reader, "rea isn't offered the field")
    same("nothing changed", heading(reader.proxy), ("passed", "bob"))


def is_large(reader: Reader, folder: pathlib.Path) -> None:
    """A file of 64 kB, and one of 5 MB with as many entries as the desk takes at once."""
    reader.sign_in("cyd")
    reader.open(VIEW)
    some = [entry("failed", f"{DIGEST} {n}") for n in range(220)]
    expect("64 kB", 62_000 < choose(reader, folder, {"@graph": some}) < 66_000)
    same("a small file", reader.text("#status"), "Of the file 220 would be added, 0 known, 0 skipped.")
    expect("a part of it is shown", "And 120 more." in reader.text("main"), reader.text("main"))
    expect("what it takes the place of", "left open, in place of" not in reader.text("main") and "failed, in place of passed by bob" in reader.text("main"))
    send(reader)
    same("it is taken", reader.text("#status"), "The desk added 220, knew 0, and skipped 0.")
    many = [entry("passed", f"{DIGEST} {n} {'a' * 220}") for n in range(10_000)]
    expect("5 MB", 4_900_000 < choose(reader, folder, {"@graph": many}) < 5_200_000)
    same("a large file", reader.text("#status"), "Of the file 10000 would be added, 0 known, 0 skipped.")
    checked(reader, "a large file")
    send(reader)
    same("the large one is taken", reader.text("#status"), "The desk added 10000, knew 0, and skipped 0.")


def test_taking(browser: Any, desk: Serving, sign_on: Proxy, tmp_path: pathlib.Path) -> None:
    """Judgements from a file, by the keyboard, in each state of their view."""
    fill(sign_on)
    reader = Reader(browser, sign_on)
    is_shown_first(reader, tmp_path)
    is_no_file(reader, tmp_path)
    is_refused(reader, tmp_path)
    is_large(reader, tmp_path)
