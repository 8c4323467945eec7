"""The page to judge on, in a real browser, before the real desk behind the real proxy."""
from __future__ import annotations

import json
import pathlib
from typing import Any, Callable

from serving import ROOT, Serving

from ..support import SITE, collect_here, expect, same
from .asking import ask
from .packages import BROWSER, PROXY, needs
from .proxies import Proxy
from .reader import Reader, checked, signed_in

pytestmark = needs(*PROXY, *BROWSER)

PAGES = ("home", "search", "hours")
MEMBERS = {"bob": "judge", "cid": "judge", "rea": "reader"}
NOTE = "It says what stands below it. Ünïcode, and a second\nline."
# Begins a note.
KEEP = """
const [place, note, done] = arguments;
import('./kept.js').then((kept) => { kept.keepDraft(place, { note, verdict: '' }); done(); });
"""


ICON = "return document.querySelector('link[rel=icon]').getAttribute('href')"


def fill(proxy: Proxy) -> None:
    """A site of ann's with pages of the example site, and members."""
    same("the site", ask(proxy, "PUT /sites/library", b"", signed_in("ann")).status, 201)
    for name, role in MEMBERS.items():
        ask(proxy, f"PUT /sites/library/members/{name}", {"role": role}, signed_in("ann"))
    for name in PAGES:
        put = ask(proxy, f"PUT /sites/library/pages/{name}", (SITE / f"{name}.json").read_bytes(), {**signed_in("ann"), "x-rev": "0"})
        same(f"the page {name}", put.status, 200)


def put_picture(reader: Reader) -> None:
    """Puts the picture of the page home beside it, as the collector takes it."""
    shot = collect_here(reader.browser, SITE / "home.html", "--url", "https://library.example/", "--shot", "home.png").shot
    assert shot is not None
    reader.proxy.make_shots()
    for kind, body in (("png", shot.picture), ("json", {"rev": 1, "boxes": json.loads(shot.boxes)["boxes"]})):
        same(f"the picture's {kind}", ask(reader.proxy, f"PUT /shots/library/home.{kind}", body, signed_in("ann")).status, 201)


def outcomes(proxy: Proxy, page: str = "home") -> list[dict[str, Any]]:
    """The outcomes of a page, from the desk."""
    return json.loads(ask(proxy, f"GET /sites/library/pages/{page}/outcomes", None, signed_in("ann")).body)["outcomes"]


def looks_around(reader: Reader) -> None:
    """From the start to a site and a page, by the keyboard, with their counts."""
    from selenium.webdriver.common.keys import Keys
    reader.sign_in("bob")
    reader.open("")
    same("who is signed in", reader.text("#caller"), "Signed in as bob")
    reader.tab_to("the first stop", "at !== document.body")
    same("the first stop", reader.browser.execute_script("return document.activeElement.textContent"), "Skip to the main part")
    checked(reader, "the start", "start")
    icon = ask(reader.proxy, f"GET /{reader.browser.execute_script(ICON)}", None, signed_in("bob"))
    same("the icon is a file of the page's own", (icon.status, icon.fields["content-type"]), (200, "image/svg+xml"))
    reader.tab_to("the site's name", "at.id === 'site'")
    reader.keys("library", Keys.ENTER)
    reader.wait("the site", "return document.getElementById('title').innerText === 'Site library'")
    reader.settle()
    same("the focus goes along", reader.browser.execute_script("return document.activeElement.id"), "title")
    rows = reader.browser.execute_script(
        "return [...document.querySelectorAll('section[aria-labelledby=pages] tbody tr')].map((row) => [...row.cells].map((cell) => cell.innerText))")
    same("a site's pages", [row[0] for row in rows], sorted(PAGES))
    final = [one["outcome"] for one in outcomes(reader.proxy)]
    same("a page's counts", rows[0][:5],
         ["home", "1", f"{final.count('failed')} failed on home", f"{final.count('cantTell')} undecided on home", str(final.count("passed"))])
    same("its undecided findings", rows[0][3], "11 undecided on home")
    same("a criterion's result", reader.browser.execute_script("""return [...document.querySelectorAll('section[aria-labelledby=criteria] tbody tr')]
        .map((row) => row.innerText.split('\\t')).find(([name]) => name.startsWith('4.1.2'))[2]"""), "Failed")
    checked(reader, "a site", "site")
    reader.tab_to("a page's name", "at.id === 'page'")
    reader.keys("hours", Keys.ENTER)
    reader.wait("the page", "return document.getElementById('title').innerText === 'Page hours of library'")
    reader.settle()
    reader.tab_to("the site", "at.closest('#trail') && at.textContent === 'library'")
    reader.keys(Keys.ENTER)
    reader.wait("the site again", "return document.getElementById('title').innerText === 'Site library'")


def reads_findings(reader: Reader) -> None:
    """A page's findings, all of them and filtered, with what they mean and what mends them."""
    from selenium.webdriver.common.keys import Keys
    reader.open("?site=library&page=home")
    final = [one["outcome"] for one in outcomes(reader.proxy)]
    same("all findings are shown", reader.browser.execute_script("return document.querySelectorAll('.target').length"), len(final))
    rules = json.loads(pathlib.Path(ROOT, "silvervole", "data", "rules.json").read_text(encoding="utf-8"))["rules"]
    advice = next(rule for rule in rules if rule["id"] == "97a4e1")
    # The title, five headings and four ways to bypass blocks are for people; the composite of those four is undecided with them.
    expect("what is to judge", "Judge 10 questions, one after another" in reader.text("main")
           and "For a person to judge 10 findings, and 1 composite that follows from them" in reader.text("main"), reader.text("main")[:900])
    expect("nobody judges the composite", "follows from others" in reader.text(".rule:has(.merged)")
           and "Nobody judges it" in reader.text(".rule:has(.merged)"))
    expect("what mends a finding is said", next(one for one in advice["reasons"] if one["reason"] == "no-name")["mends"] in reader.text("main"))
    checked(reader, "a page", "page")
    reader.tab_to("the outcomes", "at.id === 'outcome'")
    reader.keys(Keys.ARROW_DOWN, Keys.ARROW_DOWN)
    same("a choice alone moves nothing", reader.browser.execute_script("return [document.activeElement.id, document.activeElement.value, location.search]"),
         ["outcome", "cantTell", "?site=library&page=home"])
    reader.keys(Keys.ARROW_UP)
    reader.tab_to("the button", "at.innerText === 'Show these'")
    reader.keys(Keys.ENTER)
    reader.wait("the filtered page", "return location.search.includes('outcome=failed')")
    reader.wait("what failed", f"return document.querySelectorAll('.target').length === {final.count('failed')}")
    reader.settle()
    checked(reader, "a filtered page")
    reader.open("?site=library&page=home&outcome=failed&criterion=2.4.2")
    expect("choices that nothing meets", "Nothing here is as you chose" in reader.text("main"), reader.text("main"))
    checked(reader, "choices that nothing meets")


def begin(reader: Reader, place: str, verdict: str = "passed", note: str = NOTE, page: str = "home") -> None:
    """Opens a finding to judge, and fills the form by the keyboard."""
    from selenium.webdriver.common.keys import Keys
    reader.open(f"?site=library&page={page}&judge={place}")
    reader.tab_to("the verdict", "at.name === 'verdict'")
    reader.keys(*{"passed": (Keys.SPACE,), "failed": (Keys.SPACE, Keys.ARROW_DOWN)}[verdict])
    reader.tab_to("the note", "at.id === 'note'")
    reader.browser.execute_script("document.activeElement.select()")
    reader.keys(note)


def submit(reader: Reader) -> None:
    """Sends the form by the keyboard."""
    from selenium.webdriver.common.keys import Keys
    reader.tab_to("the button", "at.type === 'submit'")
    reader.keys(Keys.ENTER)
    reader.wait("an answer", "return !document.getElementById('status').textContent.startsWith('Sending')")


def refused(reader: Reader, what: str, says: str) -> None:
    """Sends the form, which is refused; the note stays, also when the page is opened anew."""
    submit(reader)
    reader.wait(what, "return document.querySelector('.told')")
    expect(f"{what} is said plainly", says in reader.text(".told") and "Your note is kept" in reader.text(".told"), reader.text(".told"))
    same(f"{what}: the note is there", reader.browser.execute_script("return document.getElementById('note').value"), NOTE)
    checked(reader, what, "refused" if says.startswith("The page has changed") else None)


def judges(reader: Reader) -> None:
    """A judgement after another by the keyboard, and what is refused."""
    proxy = reader.proxy
    to_judge = [f"{one['rule']}-{one['node']}" for one in outcomes(proxy) if one["automatic"] == "cantTell" and one["reason"] != "merged"]
    begin(reader, to_judge[0])
    expect("with a picture of the page", "This is the upper part of the page." in reader.text(".shot"), reader.text("main"))
    checked(reader, "a finding to judge")
    submit(reader)
    reader.wait("the next finding", f"return location.search.includes('{to_judge[1]}')")
    reader.settle()
    expect("with its part of the picture", "The frame is around the element." in reader.text(".shot"), reader.text("main"))
    checked(reader, "the next finding", "judge")
    expect("it says that it was taken", "has your judgement" in reader.text("#status"), reader.text("#status"))
    same("the desk has it", [one["by"] for one in outcomes(proxy) if f"{one['rule']}-{one['node']}" == to_judge[0]], ["bob"])
    title = next(one for one in outcomes(proxy, "search") if one["rule"] == "c4a8a4")
    begin(reader, f"c4a8a4-{title['node']}", page="search")
    change_title(proxy, "search")
    refused(reader, "evidence that moved", "The page has changed since you opened it")
    reader.browser.execute_script("document.querySelector('.told button').click()")
    reader.wait("the new evidence", "return document.querySelector('.facts pre')?.innerText.startsWith('Another title')")
    same("the note is still there", reader.browser.execute_script("return document.getElementById('note').value"), NOTE)
    submit(reader)
    reader.settle()
    expect("then it is taken", any(one["rule"] == "c4a8a4" and one["by"] == "bob" for one in outcomes(proxy, "search")))
    not_allowed(reader, to_judge[1])
    is_no_more(reader)
    taken_alone(reader, to_judge[1])


def change_title(proxy: Proxy, page: str) -> None:
    """Changes a page's title, and so the evidence of the rule on titles."""
    shown = json.loads(ask(proxy, f"GET /sites/library/pages/{page}", None, signed_in("ann")).body)
    rows = shown["snapshot"]["nodes"]
    title = next(row["n"] for row in rows if row.get("tag") == "title")
    text = next(row["n"] for row in rows if row["p"] == title)
    edit = {"edits": [{"op": "setText", "node": text, "text": "Another title"}]}
    same("the page is changed", ask(proxy, f"POST /sites/library/pages/{page}/edits", edit, {**signed_in("ann"), "x-rev": str(shown["rev"])}).status, 200)


def not_allowed(reader: Reader, place: str) -> None:
    """Who may not judge, who isn't signed in any more, and a stranger."""
    for name, what, says in (("ann", "who sent the page", "somebody else has to judge it"), ("rea", "a reader", "it takes a judge")):
        reader.sign_in(name)
        begin(reader, place)
        refused(reader, what, says)
    reader.sign_in("cid")
    begin(reader, place)
    reader.sign_in(None)
    refused(reader, "who isn't signed in any more", "You are not signed in")
    reader.sign_in("cid")
    reader.open(f"?site=library&page=home&judge={place}")
    same("a note outlives the page", reader.browser.execute_script("return document.getElementById('note').value"), NOTE)
    begin(reader, place, note="a" * 2001)
    submit(reader)
    expect("a note that is too long isn't sent", "2001 bytes" in reader.text(".told"), reader.text(".told"))
    reader.sign_in("eve")
    reader.open("?site=library&page=home")
    expect("a stranger is told so", "it takes a reader" in reader.text(".told"), reader.text())
    checked(reader, "a stranger")
    reader.sign_in("cid")


def is_no_more(reader: Reader) -> None:
    """A finding that is no more, on which a note was begun."""
    reader.browser.execute_async_script(KEEP, {"caller": "cid", "site": "library", "page": "home", "rule": "c4a8a4", "node": "9999"}, NOTE)
    reader.open("?site=library&page=home&judge=c4a8a4-9999")
    expect("a finding that is no more", reader.title() == "Nothing to judge here" and NOTE in reader.text("main"), reader.text("main"))
    checked(reader, "a finding that is no more")


def taken_alone(reader: Reader, place: str) -> None:
    """The desk takes a judgement, and what comes next can't be asked for: both are said."""
    begin(reader, place)
    reader.browser.execute_cdp_cmd("Network.setBlockedURLs", {"urls": ["*/outcomes"]})
    submit(reader)
    reader.wait("a refusal", "return document.querySelector('.told')")
    reader.browser.execute_cdp_cmd("Network.setBlockedURLs", {"urls": []})
    expect("it says that it was taken and what wasn't shown", "has your judgement, but the next" in reader.text("#status") and "is away" in reader.text(".told"),
           reader.text())
    same("the desk has that one too", [one["by"] for one in outcomes(reader.proxy) if f"{one['rule']}-{one['node']}" == place], ["cid"])


def desk_is_away(reader: Reader, end_desk: Callable[[], None]) -> None:
    """The desk ends while somebody judges."""
    place = next(f"{one['rule']}-{one['node']}" for one in outcomes(reader.proxy)
                 if one["automatic"] == "cantTell" and one["by"] == "" and one["reason"] != "merged")
    begin(reader, place)
    end_desk()
    refused(reader, "the desk is away", "The desk is away")


def test_page(browser: Any, desk: Serving, sign_on: Proxy) -> None:
    """The page to judge on, by the keyboard, in each of its states."""
    fill(sign_on)
    reader = Reader(browser, sign_on)
    for part in (put_picture, looks_around, reads_findings, judges):
        part(reader)
    desk_is_away(reader, desk.end)
