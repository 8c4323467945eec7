"""A site's success criteria and the names of a page, in a real browser, with values worked out by hand."""
from __future__ import annotations

import json
import pathlib
import tempfile
import time
from typing import Any

from serving import Serving

from ..support import expect, same
from .asking import ask
from .packages import BROWSER, PROXY, needs
from .proxies import Proxy
from .reader import LISTEN, PATIENCE, Reader, checked, signed_in, size

pytestmark = needs(*PROXY, *BROWSER)

ANN, BOB = signed_in("ann"), signed_in("bob")
NOTE = "It says what stands below it."


def row(number: int, parent: int | None, what: str, f: str = "rv", **attrs: str) -> dict[str, Any]:
    """A row of a snapshot: a text where it begins with a space, else an element."""
    start = {"n": number, "p": parent, "f": f}
    return {**start, "text": what[1:]} if what.startswith(" ") else {**start, "tag": what, "attrs": [[name.replace("_", "-"), value] for name, value in attrs.items()]}


# A page without a title, and one with a name from each source.
HOME = [row(1, None, "html", lang="en"), row(2, 1, "body"), row(3, 2, "h1"), row(4, 3, " Hours")]
DIGEST = "94f744d74ca5dc37d76ebfd316cd769057abf7496429727f2cdecc2e24247a36"
ASK = [
    row(1, None, "html", lang="en"), row(2, 1, "head", ""), row(3, 2, "title", ""), row(4, 3, " Ask us", ""),
    row(5, 1, "body"), row(6, 5, "h1"), row(7, 6, " Ask us"), row(8, 5, "label", **{"for": "q"}), row(9, 8, " Question"),
    row(10, 5, "input", type="text", id="q"), row(11, 5, "button"), row(12, 5, "img", alt="Bird"),
    row(13, 5, "a", href="/", aria_label="Home"), row(14, 13, " Start"), row(15, 5, "button", id="b", aria_label="Save", aria_labelledby="b f"),
    row(16, 5, "span", "", id="f"), row(17, 16, " file", ""), row(18, 5, "nav", title="Pages"), row(19, 5, "input", type="text", placeholder="Town")]
CRITERIA = [
    ["1.1.1 Non-text Content", "A", "No failure found"], ["1.3.1 Info and Relationships", "A", "No failure found"],
    ["1.3.5 Identify Input Purpose", "AA", "Nothing to look at"], ["1.4.4 Resize Text", "AA", "Nothing to look at"],
    ["2.2.1 Timing Adjustable", "A", "Nothing to look at"], ["2.4.1 Bypass Blocks", "A", "Nothing to look at"],
    ["2.4.2 Page Titled", "A", "Failed"], ["2.4.4 Link Purpose (In Context)", "A", "No failure found"],
    ["2.4.6 Headings and Labels", "AA", "For a person to judge"], ["3.1.1 Language of Page", "A", "No failure found"],
    ["3.1.2 Language of Parts", "AA", "Nothing to look at"], ["4.1.2 Name, Role, Value", "A", "Failed"]]
PAGES = [["ask", "2", "1 failed on ask", "2 undecided on ask", "13", "18"], ["home", "1", "1 failed on home", "0", "4", "25"]]
CSV = """site,page,rev,node,rule,outcome,automatic,reason,judge
town,ask,2,1,2779a5,passed,passed,ok,
town,ask,2,1,c4a8a4,cantTell,cantTell,judge-title,
town,ask,2,1,b5c3f8,passed,passed,ok,
town,ask,2,1,bf051a,passed,passed,ok,
town,ask,2,11,97a4e1,failed,failed,no-name,
town,ask,2,15,97a4e1,passed,passed,ok,
town,ask,2,13,c487ae,passed,passed,ok,
town,ask,2,12,23a2a8,passed,passed,ok,
town,ask,2,10,e086e5,passed,passed,ok,
town,ask,2,19,e086e5,passed,passed,ok,
town,ask,2,6,ffd0e9,passed,passed,ok,
town,ask,2,6,b49b2e,cantTell,cantTell,judge-heading,
town,ask,2,13,5f99a7,passed,passed,ok,
town,ask,2,15,5f99a7,passed,passed,ok,
town,ask,2,13,6a7281,passed,passed,ok,
town,ask,2,15,6a7281,passed,passed,ok,
town,home,1,1,2779a5,failed,failed,no-title,
town,home,1,1,b5c3f8,passed,passed,ok,
town,home,1,1,bf051a,passed,passed,ok,
town,home,1,3,ffd0e9,passed,passed,ok,
town,home,1,3,b49b2e,passed,cantTell,judge-heading,bob
"""
# How many assertions the EARL has: the records above, and 18 and 25 rules without a target.
ASSERTIONS = 21 + 18 + 25
# What the page says of each element: role and name, where it comes from, and its findings.
NAMES = [
    ["document “Ask us”", "node 1, from the title element", "4 findings on node 1"],
    ["heading “Ask us”", "node 6, from its content", "2 findings on node 6"],
    ["textbox “Question”", "node 10, from its label", "1 finding on node 10"],
    ["button no name", "node 11", "1 finding on node 11, 1 failed"],
    ["img “Bird”", "node 12, from its alt, value, legend, caption or the like", "1 finding on node 12"],
    ["link “Home”", "node 13, from aria-label", "3 findings on node 13"],
    ["button “Save file”", "node 15, from what aria-labelledby refers to", "3 findings on node 15"],
    ["navigation “Pages”", "node 18, from its title attribute"],
    ["textbox “Town”", "node 19, from its placeholder", "1 finding on node 19"]]
# A report in its form, and texts that are none: one that was cut, one with a line of no form, and none at all.
REPORT = """site library
page home rev 3 passed 26 failed 3 cantTell 11 inapplicable 13
criterion 1.1.1 A failed
criterion 1.4.4 AA noFailureFound
total pages 1 passed 26 failed 3 cantTell 11 inapplicable 13
"""
BROKEN = (REPORT[:-1], REPORT.replace("criterion 1.1.1 A failed", "criterion 1.1.1 failed"), "")
READ = """
const [text, done] = arguments;
import('./report.js').then(({ readReport }) => {
  const { pages, criteria, total } = readReport(text);
  const four = (counts) => [counts.passed, counts.failed, counts.cantTell, counts.inapplicable];
  done([pages.map(({ name, rev, counts }) => [name, rev, ...four(counts)]), criteria.map(({ number, level, result }) => [number, level, result]), four(total)]);
}).catch((error) => done(`${error}`));
"""
# The addresses that the page asks for, one after another, from when this runs.
COUNT = """
window.asked = [];
const fetched = window.fetch;
window.fetch = (...given) => { window.asked.push(given[0]); return fetched(...given); };
"""
ROWS = "return [...document.querySelectorAll(`section[aria-labelledby=${arguments[0]}] tbody tr`)].map((row) => [...row.cells].map((cell) => cell.innerText))"
LIST = """
return [...document.querySelectorAll('.pages > li')].map((one) => [one.querySelector('h3').innerText,
  ...[...one.querySelectorAll('dl > div')].map((part) => [...part.children].map((word) => word.innerText).join(' '))]);
"""
SAID = "return [...document.querySelectorAll('.said > li')].map((one) => [...one.firstElementChild.children].map((part) => part.innerText))"
TARGETS = "return [...document.querySelectorAll('.target h4')].map((one) => one.innerText)"


def fill(proxy: Proxy) -> None:
    """A site of ann's with two pages, of which bob judged one."""
    same("the site", ask(proxy, "PUT /sites/town", b"", ANN).status, 201)
    same("an empty site", ask(proxy, "PUT /sites/empty", b"", ANN).status, 201)
    for name, role in (("bob", "judge"), ("rea", "reader")):
        ask(proxy, f"PUT /sites/town/members/{name}", {"role": role}, ANN)
    for name, rows in (("home", HOME), ("ask", ASK)):
        page = {"url": f"https://town.example/{name}", "nodes": rows}
        same(f"the page {name}", ask(proxy, f"PUT /sites/town/pages/{name}", page, {**ANN, "x-rev": "0"}).status, 200)
    judgement = {"rule": "b49b2e", "node": 3, "verdict": "passed", "digest": DIGEST}
    same("the judgement", ask(proxy, "POST /sites/town/pages/home/judgements", judgement, BOB).status, 200)


def follow(reader: Reader, text: str, title: str) -> None:
    """Follows a link by the keyboard, and waits for the view with this title."""
    from selenium.webdriver.common.keys import Keys
    reader.tab_to(text, f"at.tagName === 'A' && at.innerText === {json.dumps(text)}")
    reader.keys(Keys.ENTER)
    reader.wait(title, f"return document.getElementById('title').innerText === {json.dumps(title)}")
    reader.settle()
    same(f"the focus goes along to {title}", reader.browser.execute_script("return document.activeElement.id"), "title")


def shows_criteria(reader: Reader) -> None:
    """A site's criteria, and its pages with their counts, each of which leads to its findings."""
    reader.open("?site=town")
    same("the criteria", reader.browser.execute_script(ROWS, "criteria"), CRITERIA)
    same("the pages", reader.browser.execute_script(ROWS, "pages"), PAGES)
    expect("the sums", "2 pages. Findings: 2 failed, 2 undecided, 17 passed." in reader.text("main"), reader.text("main"))
    checked(reader, "a site's criteria")
    size(reader.browser, 320, 640)
    reader.wait("a list", "return document.querySelector('.pages')")
    same("the pages as a list", [reader.browser.execute_script(LIST), reader.browser.execute_script(ROWS, "pages")], [
        [["ask", "Revision 2", "Failed 1 failed on ask", "Undecided 2 undecided on ask", "Passed 13", "Rules without a target 18"],
         ["home", "Revision 1", "Failed 1 failed on home", "Undecided 0", "Passed 4", "Rules without a target 25"]], []])
    size(reader.browser, 1280, 900)
    reader.wait("a table", "return !document.querySelector('.pages')")
    same("the pages as a table again", reader.browser.execute_script(ROWS, "pages"), PAGES)
    follow(reader, "1 failed on home", "Page home of town")
    same("what failed on home", reader.browser.execute_script(TARGETS), ["The page as a whole, node 1"])
    follow(reader, "town", "Site town")
    follow(reader, "2 undecided on ask", "Page ask of town")
    same("what is to judge on ask", reader.browser.execute_script(TARGETS), ["The page as a whole, node 1", "h1, node 6"])
    follow(reader, "town", "Site town")
    follow(reader, "home", "Page home of town")
    same("all of home", len(reader.browser.execute_script(TARGETS)), 5)
    same("a report in its form", reader.browser.execute_async_script(READ, REPORT),
         [[["home", 3, 26, 3, 11, 13]], [["1.1.1", "A", "failed"], ["1.4.4", "AA", "noFailureFound"]], [26, 3, 11, 13]])
    for text in BROKEN:
        told = reader.browser.execute_async_script(READ, text)
        expect("what is no report is told", isinstance(told, str) and "report" in told, (text, told))


def saved(folder: str, name: str) -> bytes:
    """The bytes of a file as soon as the browser has saved it; none where that doesn't happen."""
    path = pathlib.Path(folder, name)
    end = time.monotonic() + PATIENCE
    while not path.exists() and time.monotonic() < end:
        time.sleep(0.1)
    return path.read_bytes() if path.exists() else b""


def saves(reader: Reader, button: str) -> None:
    """Presses one of the buttons that save a file, and waits until it is saved or refused."""
    from selenium.webdriver.common.keys import Keys
    reader.tab_to(button, f"at.innerText === {json.dumps(button)}")
    reader.keys(Keys.ENTER)
    reader.wait("an end", "return document.querySelector('.told') || document.querySelector('.fetched').innerText.startsWith('The browser has')")


def saves_files(reader: Reader) -> None:
    """CSV and EARL as files, and why one isn't saved."""
    with tempfile.TemporaryDirectory() as folder:
        reader.browser.execute_cdp_cmd("Browser.setDownloadBehavior", {"behavior": "allow", "downloadPath": folder})
        reader.open("?site=town")
        saves(reader, "Save as CSV")
        same("it says so", reader.text(".fetched"), "The browser has town.csv.")
        same("the focus stays", reader.browser.execute_script("return document.activeElement.innerText"), "Save as CSV")
        checked(reader, "a file that is saved")
        same("the CSV", saved(folder, "town.csv").decode(), CSV)
        is_on_its_way(reader)
        earl = saved(folder, "town.jsonld")
        same("the EARL is the desk's", earl, ask(reader.proxy, "GET /sites/town/earl", None, BOB).body)
        same("its assertions", len(json.loads(earl or b'{"@graph":[]}')["@graph"]), ASSERTIONS)
        reader.browser.execute_cdp_cmd("Network.setBlockedURLs", {"urls": ["*/csv"]})
        saves(reader, "Save as CSV")
        reader.browser.execute_cdp_cmd("Network.setBlockedURLs", {"urls": []})
        expect("no file was saved", "The desk is away." in reader.text(".told") and "No file was saved." in reader.text(".told"), reader.text("main"))
        checked(reader, "a file that isn't saved")
        reader.sign_in("eve")
        saves(reader, "Save as EARL")
        expect("a stranger gets no file", "it takes a reader" in reader.text(".told"), reader.text("main"))
        same("files in all", sorted(path.name for path in pathlib.Path(folder).iterdir()), ["town.csv", "town.jsonld"])
    reader.sign_in("bob")


def slow(reader: Reader, latency: int, bytes_a_second: int) -> None:
    """Makes the network slow: so many milliseconds for each request, and so many bytes a second; 0 and -1 are as fast as it is."""
    reader.browser.execute_cdp_cmd("Network.emulateNetworkConditions",
                                   {"offline": False, "latency": latency, "downloadThroughput": bytes_a_second, "uploadThroughput": -1})


def is_on_its_way(reader: Reader) -> None:
    """A long file says how far it has come, and is asked for once however often its button is pressed."""
    from selenium.webdriver.common.keys import Keys
    size = len(ask(reader.proxy, "GET /sites/town/earl", None, BOB).body)
    slow(reader, 0, 1_000)
    reader.browser.execute_script(COUNT)
    reader.tab_to("the button", "at.innerText === 'Save as EARL'")
    reader.keys(Keys.ENTER)
    bar = reader.wait("how far it has come", "const bar = document.querySelector('progress'); return bar && [bar.max, 0 < bar.value && bar.value < bar.max]")
    same("how far it has come", bar, [size, True])
    checked(reader, "a file on its way")
    reader.keys(Keys.ENTER)
    slow(reader, 0, -1)
    reader.wait("its end", "return document.querySelector('.fetched').innerText === 'The browser has town.jsonld.'")
    same("it is asked for once", reader.browser.execute_script("return window.asked"), ["/sites/town/earl"])
    same("then nothing is on its way", reader.browser.execute_script("return document.querySelector('progress')"), None)


def are_asked_for(reader: Reader) -> None:
    """While the names of a page are asked for, the page says how far that has come; where it is edited meanwhile, they are asked for anew."""
    reader.open("?site=town&page=ask")
    reader.browser.execute_script(LISTEN)
    slow(reader, 5_000, -1)
    reader.browser.execute_script("[...document.querySelectorAll('a')].find((one) => one.innerText.startsWith('Names')).click()")
    reader.wait("how far it has come", "return document.querySelector('progress')?.value === 1")
    edits = {"edits": [{"op": "setAttr", "node": 12, "name": "alt", "value": "Owl"}]}
    same("the edit", ask(reader.proxy, "POST /sites/town/pages/ask/edits", edits, {**ANN, "x-rev": "2"}).status, 200)
    checked(reader, "names that are asked for")
    slow(reader, 0, -1)
    reader.wait("the names", "return document.querySelector('.said')")
    said = reader.browser.execute_script("return window.said")
    same("how often they are asked for", said.count("Asking for the names of ask, 2 of 3"), 2)
    same("the new name", reader.browser.execute_script(SAID)[4][0], "img “Owl”")
    expect("and revision", "revision 3" in reader.text(".address"), reader.text(".address"))


def shows_names(reader: Reader) -> None:
    """The names of a page, all of them and of one role, and from a name to its findings."""
    from selenium.webdriver.common.keys import Keys
    reader.open("?site=town&page=ask")
    reader.browser.execute_script(LISTEN)
    follow(reader, "Names as a screen reader says them", "Names on page ask of town")
    expect("progress is said", "Asking for the names of ask, 2 of 3" in reader.browser.execute_script("return window.said"))
    same("the names", reader.browser.execute_script(SAID), NAMES)
    expect("their number", "9 elements, 1 without a name" in reader.text("#said"), reader.text("#said"))
    checked(reader, "names", "names")
    same("the roles", reader.browser.execute_script("return [...document.getElementById('role').options].map((one) => one.innerText)"),
         ["All roles", "button (2)", "document (1)", "heading (1)", "img (1)", "link (1)", "navigation (1)", "textbox (2)"])
    reader.tab_to("the roles", "at.id === 'role'")
    reader.keys(Keys.ARROW_DOWN)
    same("a choice alone moves nothing", reader.browser.execute_script("return [document.activeElement.value, location.search]"),
         ["button", "?site=town&page=ask&show=names"])
    reader.tab_to("the button", "at.innerText === 'Show these'")
    reader.keys(Keys.ENTER)
    reader.wait("one role", "return location.search.includes('role=button') && document.querySelectorAll('.said > li').length === 2")
    reader.settle()
    same("names of one role", reader.browser.execute_script(SAID), [NAMES[3], NAMES[6]])
    checked(reader, "names of one role")
    follow(reader, "1 finding on node 11, 1 failed", "Page ask of town")
    same("the findings on a node", reader.browser.execute_script(TARGETS), ["button, node 11"])
    expect("it says which", "Only the findings on button, node 11." in reader.text("main"), reader.text("main"))
    checked(reader, "the findings on a node")
    follow(reader, "Show those on all nodes", "Page ask of town")
    same("all findings", len(reader.browser.execute_script(TARGETS)), 16)
    reader.open("?site=town&page=ask&node=99")
    expect("a node that isn't there", "Only the findings on node 99." in reader.text("main")
           and "Nothing here is as you chose" in reader.text("main"), reader.text("main"))
    reader.open("?site=town&page=ask&show=names&role=slider")
    expect("a role that isn't there", "Nothing here is as you chose" in reader.text("main"), reader.text("main"))
    checked(reader, "a role that isn't there")


def keeps_a_note(reader: Reader) -> None:
    """A note that was begun is there again after a way over both views."""
    reader.open("?site=town&page=ask&judge=b49b2e-6")
    reader.tab_to("the note", "at.id === 'note'")
    reader.keys(NOTE)
    follow(reader, "ask", "Page ask of town")
    follow(reader, "Names as a screen reader says them", "Names on page ask of town")
    follow(reader, "town", "Site town")
    saves(reader, "Save as CSV")
    reader.browser.execute_script("history.go(-3)")
    reader.wait("the form", "return document.getElementById('note')")
    reader.settle()
    same("the note is there", reader.browser.execute_script("return document.getElementById('note').value"), NOTE)


def refused(reader: Reader, what: str, address: str, says: str) -> None:
    """Expects that a view can't be shown, and that it says why."""
    reader.open(address)
    expect(f"{what} is told so", reader.title() == "This can't be shown" and says in reader.text(".told"), reader.text())


def refuses(reader: Reader) -> None:
    """Who may not see the views, and what isn't there."""
    names = "?site=town&page=ask&show=names"
    for name, says in (("eve", "it takes a reader"), (None, "You are not signed in")):
        reader.sign_in(name)
        refused(reader, f"{name} at the names", names, says)
        refused(reader, f"{name} at the site", "?site=town", says)
    reader.sign_in("rea")
    reader.open(names)
    same("a reader sees the names", len(reader.browser.execute_script(SAID)), len(NAMES))
    refused(reader, "a page that isn't there", "?site=town&page=gone&show=names", "There is no such page.")
    checked(reader, "names of a page that isn't there")
    refused(reader, "a site that isn't there", "?site=nowhere", "There is no such site.")
    refused(reader, "a name of another form", "?site=No+Where", "a name is not of the form")
    checked(reader, "a name of another form")
    reader.sign_in("ann")
    reader.open("?site=empty")
    expect("a site without a page says so", "This site has no page." in reader.text("main"), reader.text("main"))
    same("and has no criteria", reader.browser.execute_script(ROWS, "criteria"), [])
    checked(reader, "a site without a page")


def moves_on(reader: Reader) -> None:
    """A page that is deleted while it is shown is gone when it is asked for again."""
    from selenium.webdriver.common.keys import Keys
    reader.sign_in("bob")
    reader.open("?site=town&page=home&show=names")
    same("the names of home", reader.browser.execute_script(SAID), [
        ["document no name", "node 1", "3 findings on node 1, 1 failed"], ["heading “Hours”", "node 3, from its content", "2 findings on node 3"]])
    same("home is deleted", ask(reader.proxy, "DELETE /sites/town/pages/home", None, {**ANN, "x-rev": "1"}).status, 200)
    reader.tab_to("the button", "at.innerText === 'Show these'")
    reader.keys(Keys.ENTER)
    reader.wait("that it is gone", "return document.querySelector('.told')?.innerText.includes('There is no such page.')")


def desk_is_away(reader: Reader, desk: Serving) -> None:
    """The desk ends while a site is shown."""
    reader.open("?site=town")
    desk.end()
    saves(reader, "Save as EARL")
    expect("no file without a desk", "The desk is away." in reader.text(".told"), reader.text("main"))
    refused(reader, "no names without a desk", "?site=town&page=ask&show=names", "The desk is away.")
    refused(reader, "no site without a desk", "?site=town", "The desk is away.")


def test_views(browser: Any, desk: Serving, sign_on: Proxy) -> None:
    """A site's criteria and a page's names, by the keyboard."""
    fill(sign_on)
    reader = Reader(browser, sign_on)
    reader.sign_in("bob")
    for part in (shows_criteria, saves_files, shows_names, are_asked_for, keeps_a_note, refuses, moves_on):
        part(reader)
    desk_is_away(reader, desk)
