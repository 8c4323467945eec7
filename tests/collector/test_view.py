"""The view of findings: as an accessible page, with hostile texts, and with pictures."""
from __future__ import annotations

import base64
import hashlib
import json
import os
import pathlib
import re
import shutil
import subprocess
import tempfile
from typing import Any

import pytest

from silvervole.collect.taking import Wanted, take

from ..axe import violations
from ..support import DESK, DOCS, PAGES, ROOT, SITE, VIEW, collect_here, expect, form, note, open_file, page, run, same, well_formed

# Each kind of line that a report may have, on the search page.
REPORT = """page https://library.example/search
2779a5 node 1 passed ok
c4a8a4 node 1 cantTell judge-title
b5c3f8 node 1 passed judged by ann
c487ae node 16 passed ok
c487ae node 20 passed ok
59796f node 71 failed no-name
e086e5 node 79 failed no-name
bc4a75 node 123 failed bad-owned
bc4a75 node 141 cantTell nothing-owned
zz9999 node 69 failed never-heard-of
73f2c2 inapplicable
yy8888 inapplicable
passed 4 failed 4 cantTell 2 inapplicable 2
"""

# Texts whose contrast with what is behind them is too small, by WCAG 2.2's formula.
CONTRAST = """
const channels = (color) => color.match(/[0-9.]+/g).map(Number);
const light = (value) => (value / 255 <= 0.04045 ? value / 255 / 12.92 : ((value / 255 + 0.055) / 1.055) ** 2.4);
const luminance = ([r, g, b]) => 0.2126 * light(r) + 0.7152 * light(g) + 0.0722 * light(b);
const ground = (element) => {
  for (let up = element; up; up = up.parentElement) {
    const found = channels(getComputedStyle(up).backgroundColor);
    if (found.length === 3) return found;
  }
  return [255, 255, 255];
};
const faults = [];
const walker = document.createTreeWalker(document.body, NodeFilter.SHOW_TEXT);
while (walker.nextNode()) {
  const element = walker.currentNode.parentElement;
  if (walker.currentNode.data.trim() === '' || !element.checkVisibility()) continue;
  const [one, other] = [luminance(channels(getComputedStyle(element).color)), luminance(ground(element))].sort((a, b) => b - a);
  if ((one + 0.05) / (other + 0.05) < 4.5) faults.push(walker.currentNode.data.trim().slice(0, 40));
}
return faults;
"""

# The ids of the parts that are shown.
SHOWN = """
return [...document.querySelectorAll('.rule, .nothing, .outcome')].filter((part) => part.checkVisibility())
  .map((part) => part.id || part.className);
"""


class opened:
    """A view in a file, opened in the browser, for the time of a with statement."""

    def __init__(self, browser: Any, snapshot: Any, report: str, *words: object) -> None:
        self.browser, self.snapshot, self.report, self.words = browser, snapshot, report, words

    def __enter__(self) -> str:
        self.folder = tempfile.TemporaryDirectory()
        report = pathlib.Path(self.folder.name, "report.txt")
        report.write_text(self.report, encoding="utf-8")
        code, out, err = run(self.snapshot, report, *self.words, program=VIEW)
        expect("the view is written", code == 0 and err == "", f"status {code}, {err!r}")
        path = os.path.join(self.folder.name, "findings.html")
        pathlib.Path(path).write_bytes(out)
        self.browser.get_log("browser")
        open_file(self.browser, path)
        same("no line on the console", [entry["message"] for entry in self.browser.get_log("browser")], [])
        return path

    def __exit__(self, *rest: object) -> None:
        self.folder.cleanup()


def accessible(browser: Any) -> list[tuple[str, str]]:
    """The roles and names that the browser gives to assistive technology, in the order in which it reads them."""
    nodes = browser.execute_cdp_cmd("Accessibility.getFullAXTree", {})["nodes"]
    by_id = {node["nodeId"]: node for node in nodes}
    in_order, waiting = [], [nodes[0]]
    while waiting:
        node = waiting.pop()
        in_order.append(node)
        waiting.extend(by_id[kid] for kid in reversed(node.get("childIds", [])) if kid in by_id)
    return [(node["role"]["value"], node.get("name", {}).get("value", "").strip()) for node in in_order
            if not node.get("ignored") and "role" in node]


def picture_of(browser: Any) -> bytes:
    """A picture of the window."""
    return base64.b64decode(browser.execute_cdp_cmd("Page.captureScreenshot", {"format": "png"})["data"])


def test_view(browser: Any) -> None:
    """Landmarks, headings, language, keyboard and contrast of the view itself."""
    blank = len(picture_of(browser))
    with opened(browser, SITE / "search.json", REPORT) as path:
        said = accessible(browser)
        for landmark in (("banner", ""), ("complementary", "Show"), ("main", ""), ("contentinfo", "")):
            same(f"the landmark {landmark[0]}", [one for one in said if one[0] == landmark[0]], [landmark])
        same("the regions", [name for role, name in said if role == "region"],
             ["By criterion", "Failed 4 findings", "For a person to judge 2 findings", "Passed 4 findings", "Rules without a target 2 rules"])
        headings = [name for role, name in said if role == "heading"]
        same("the first heading", headings[:1], ["Findings on Search the catalogue - Wenbrook Public Library"])
        expect("a rule that isn't known is shown by its id", "Rule zz9999 1 finding" in headings, headings)
        levels = browser.execute_script("return [...document.querySelectorAll('h1,h2,h3,h4')].map((heading) => Number(heading.localName[1]))")
        expect("no level of headings is left out", levels[0] == 1 and all(b <= a + 1 for a, b in zip(levels, levels[1:])), levels)
        same("title and language", browser.execute_script("return [document.title, document.documentElement.lang]"),
             ["4 failed, 2 to judge: findings on Search the catalogue - Wenbrook Public Library", "en"])
        same("no script, and nothing from outside", browser.execute_script(
            "return [document.querySelectorAll('script, link, img, iframe, object').length, performance.getEntriesByType('resource').length]"), [0, 0])
        same("what is quoted has the page's language", browser.execute_script(
            "return [...new Set([...document.querySelectorAll('bdi')].map((quote) => quote.lang))]"), ["en-GB", ""])
        expect("a picture of it isn't blank", len(picture_of(browser)) > 4 * blank)
        keyboard(browser)
        contrast(browser)
        self_audit(browser, path)
        axe(browser, path)


def keyboard(browser: Any) -> None:
    """Expects the skip link to be the first stop, to be seen, and to lead to the findings."""
    from selenium.webdriver.common.action_chains import ActionChains
    from selenium.webdriver.common.keys import Keys
    ActionChains(browser).send_keys(Keys.TAB).perform()
    same("the first stop", browser.execute_script(
        "const stop = document.activeElement; return [stop.textContent, stop.getBoundingClientRect().top >= 0]"), ["Skip to the findings", True])
    ActionChains(browser).send_keys(Keys.ENTER).perform()
    same("where it leads", browser.execute_script("return document.activeElement.id"), "findings")
    small = browser.execute_script("""
        return [...document.querySelectorAll('.filter p')].map((line) => line.getBoundingClientRect().height).filter((height) => height < 24)""")
    same("lines of the filter that are too small to hit", small, [])


def contrast(browser: Any) -> None:
    """Expects enough contrast, in light and dark, with all that is folded open."""
    browser.execute_script("document.querySelectorAll('details').forEach((details) => { details.open = true; })")
    for scheme in ("light", "dark"):
        browser.execute_cdp_cmd("Emulation.setEmulatedMedia", {"features": [{"name": "prefers-color-scheme", "value": scheme}]})
        same(f"texts without enough contrast, {scheme}", browser.execute_script(CONTRAST), [])
    browser.execute_cdp_cmd("Emulation.setEmulatedMedia", {"features": []})
    browser.execute_cdp_cmd("Emulation.setDeviceMetricsOverride", {"width": 320, "height": 640, "deviceScaleFactor": 1, "mobile": False})
    same("on 320 pixels nothing scrolls sideways but the table", browser.execute_script(
        "return document.documentElement.scrollWidth"), 320)
    browser.execute_cdp_cmd("Emulation.setDeviceMetricsOverride", {"width": 1280, "height": 900, "deviceScaleFactor": 1, "mobile": False})


def self_audit(browser: Any, path: str) -> None:
    """Expects the view to pass the desk's own audit, where the desk is built."""
    snapshot = collect_here(browser, path, "--url", "https://view.example/").text.encode("utf-8")
    well_formed("the view's own snapshot is well formed", snapshot)
    if not DESK.is_file():
        note("the desk isn't built: it doesn't audit the views")
    else:
        done = subprocess.run([str(DESK), "-", "audit"], input=snapshot, capture_output=True, check=False)
        failed = [line for line in done.stdout.decode("utf-8").splitlines()[1:-1] if line.split()[-2:-1] == ["failed"]]
        expect("the view passes the desk's own audit", done.returncode == 0 and failed == [], f"status {done.returncode}, {failed}")


def axe(browser: Any, path: str) -> None:
    """Expects no violation of axe-core's rules, where axe-core is installed."""
    open_file(browser, path)
    same("axe-core's violations", violations(browser), [])


def test_view_content(browser: Any) -> None:
    """What the view says of a finding, in which order, and its filters."""
    with opened(browser, SITE / "search.json", REPORT):
        every = browser.execute_script(SHOWN)
        same("failed first, then what is to judge, passed and without a target last", every, [
            "outcome failed", "failed-59796f", "failed-e086e5", "failed-bc4a75", "failed-zz9999",
            "outcome cantTell", "cantTell-c4a8a4", "cantTell-bc4a75", "outcome passed", "outcome without"])
        facts = browser.execute_script("return document.getElementById('failed-59796f-71').innerText.split('\\n').filter(Boolean)")
        same("what is said of a target", facts, [
            "input node 71", "Start tag", '<input type="image" src="images/search.svg" width="24" height="24">', "CSS path",
            "#main > div:nth-of-type(1) > form > p:nth-of-type(1) > input:nth-of-type(2)", "Text", "none", "Heading above",
            "Search the catalogue (h1)"])
        rule = browser.execute_script("return document.getElementById('failed-59796f').innerText")
        expect("name, page, criteria and advice of a rule", all(part in rule for part in (
            "Image button has non-empty accessible name", "ACT rule 59796f", "WCAG 2.2, 1.1.1 Non-text Content (level A)",
            "WCAG 2.2, 4.1.2 Name, Role, Value (level A)", "nothing says what the button does", "Say in alt what the button does")), rule)
        rows = browser.execute_script(
            "return [...document.querySelectorAll('tbody tr')].map((row) => [...row.cells].slice(0, 5).map((cell) => cell.innerText).join(' '))")
        same("the counts by criterion", rows, [
            "1.1.1 Non-text Content A 1 0 0", "1.3.1 Info and Relationships A 1 1 0", "2.4.2 Page Titled A 0 1 1",
            "2.4.4 Link Purpose (In Context) A 0 0 2", "3.1.1 Language of Page A 0 0 1", "4.1.2 Name, Role, Value A 2 0 2",
            "Under no criterion – 1 0 0"])
        folded = browser.execute_script("return [...document.querySelectorAll('details')].map((details) => details.open)")
        same("what passed is folded", folded, [False, False, False])
        browser.execute_script("document.querySelectorAll('details').forEach((details) => { details.open = true; })")
        expect("who judged is named", "Judged by ann." in browser.execute_script("return document.getElementById('passed-b5c3f8').innerText"))
        for chosen, wanted in (
                (("only-failed", "every-rule"), ["outcome failed", "failed-59796f", "failed-e086e5", "failed-bc4a75", "failed-zz9999"]),
                (("every-outcome", "only-bc4a75"), ["outcome failed", "failed-bc4a75", "outcome cantTell", "cantTell-bc4a75",
                                                     "outcome passed", "nothing passed", "outcome without"]),
                (("only-cantTell", "only-59796f"), ["outcome cantTell", "nothing cantTell"]),
                (("every-outcome", "every-rule"), [*every[:9], "passed-2779a5", "passed-b5c3f8", "passed-c487ae", "outcome without"])):
            browser.execute_script("arguments[0].forEach((id) => document.getElementById(id).click())", chosen)
            same(f"shown with {chosen}", browser.execute_script(SHOWN), wanted)


SHADOW = """<h1>Menus</h1><x-menu id=menu><template shadowrootmode=open><button id=menu aria-labelledby="menu x"></button><p><slot></slot></p></template>
<a href=""></a></x-menu>"""
SHADOW_REPORT = """page https://view.example/
97a4e1 node BUTTON failed no-name
c487ae node LINK failed no-name
passed 0 failed 2 cantTell 0 inapplicable 0
"""


def test_view_state(browser: Any, folder: str) -> None:
    """The view says which state a finding is from, and leads into shadow trees."""
    with page(SHADOW) as path:
        open_file(browser, path)
        text = take(browser, "https://view.example/", Wanted(shadow=True, state="<b>menu</b> open")).text
        rows = {row.get("tag"): row["n"] for row in json.loads(text)["nodes"]}
        snapshot = pathlib.Path(folder, "page.json")
        snapshot.write_text(text, encoding="utf-8")
        report = SHADOW_REPORT.replace("BUTTON", str(rows["button"])).replace("LINK", str(rows["a"]))
        with opened(browser, snapshot, report):
            said = browser.execute_script("return document.querySelector('header').innerText + document.title")
            same("the state at the top and in the title", said.count("<b>menu</b> open"), 2)
            targets = browser.execute_script(
                "return [...document.querySelectorAll('.target')].map((target) => target.innerText.split('\\n').filter(Boolean).slice(1, 7))")
            same("the state, the start tag and the path of each target", targets, [
                ["State", "<b>menu</b> open", "Start tag", '<button id="menu" aria-labelledby="menu x">', "CSS path", "#menu >>> #menu"],
                ["State", "<b>menu</b> open", "Start tag", "<a href>", "CSS path", "#menu > a:nth-child(1)"]])
        strange = text.replace('"in":1', '"in":"x"').replace('"at":[', '"at":[-1,').replace('"state":"', '"state":["').replace(' open"', ' open"]', 1)
        snapshot.write_text(strange, encoding="utf-8")
        code, _, err = run(snapshot, "-", program=VIEW)
        expect("what else stands in these members is passed over", code == 19 and "report" in err, err)


# Four elements own the item by its id, and the one in it doesn't; of two elements with one id the first is owned.
OWNED = """<ul><li id=item>One<b id=in aria-owns=item></b></ul><div id=all aria-owns="item item gone all in"></div>
<p id=one aria-owns=item></p><p id=two aria-owns="twice item"></p><p id=three aria-owns=" item"></p><p id=twice></p><p id=twice title=x></p>"""
OWNERS = """
return Object.fromEntries([...document.querySelectorAll('.target')].map((target) => [target.querySelector('code').innerText,
  [...target.querySelectorAll('dl > div')].filter((one) => one.firstElementChild.innerText === 'Owned by').map((one) => one.lastElementChild.innerText)]));
"""


def test_view_owned(browser: Any, folder: str) -> None:
    """The view says of a node which others own it by aria-owns; of many it names three."""
    with page(OWNED) as path:
        text = collect_here(browser, path, "--url", "https://view.example/").text
    rows = [row for row in json.loads(text)["nodes"] if "tag" in row]
    numbers = {form.attr(row, "id"): row["n"] for row in rows}
    snapshot = pathlib.Path(folder, "page.json")
    snapshot.write_text(text, encoding="utf-8")
    told = "".join(f"5f99a7 node {row['n']} failed unknown-attr\n" for row in rows)
    with opened(browser, snapshot, f"page https://view.example/\n{told}passed 0 failed {len(rows)} cantTell 0 inapplicable 0\n"):
        owners = browser.execute_script(OWNERS)
    owner = {identity: f"{tag} node {numbers[identity]}" for identity, tag in (
        ("all", '<div id="all" aria-owns="item item gone all in">'), ("one", '<p id="one" aria-owns="item">'), ("two", '<p id="two" aria-owns="twice item">'))}
    same("who owns what", {tag: owned for tag, owned in owners.items() if owned}, {
        '<li id="item">': [*owner.values(), "1 more"], '<b id="in" aria-owns="item">': [owner["all"]], '<p id="twice">': [owner["two"]]})
    same("each element is told of", len(owners), len(rows))


HOSTILE = """<title>&lt;/title&gt;&lt;script&gt;hacked = 1&lt;/script&gt; {{ 7 * 7 }} {% raw %}</title>
<h1>&lt;/bdi&gt;&lt;/main&gt;&lt;img src=x onerror=hacked=2&gt; \u202etxet \u2066 \u200b</h1>
<a href="javascript:hacked=3" id="x&quot;&gt;&lt;script&gt;hacked=4&lt;/script&gt;" title="&lt;/code&gt;&lt;/style&gt;&lt;script&gt;hacked=5&lt;/script&gt;"
 onclick="hacked=6" data-x="' onmouseover='hacked=7">&lt;/style&gt;&lt;svg onload=hacked=8&gt;&amp;lt;b&amp;gt;</a>
<a"><i>x</i></a"><p id=p><script>/* </p> */</script></p>"""


def test_hostile(browser: Any, folder: str) -> None:
    """Texts of a page that try to break out of the view stay texts."""
    with page(f"<meta charset=utf-8>{HOSTILE}") as path:
        address = "https://hostile.example/?\"><script>hacked=0</script>"
        collected = collect_here(browser, path, "--url", "https://hostile.example/", "--shot", "x.png")
        # The collector would write the address as parsed; a snapshot from elsewhere may hold another.
        text = collected.text.replace('"https://hostile.example/"', json.dumps(address), 1)
        snapshot = os.path.join(folder, "page.json")
        pathlib.Path(snapshot).write_text(text, encoding="utf-8")
        picture = os.path.join(folder, "page.png")
        assert collected.shot is not None
        pathlib.Path(picture).write_bytes(collected.shot.picture)
        told = json.loads(collected.shot.boxes)
        told["snapshot"] = hashlib.sha256(text.encode("utf-8")).hexdigest()
        pathlib.Path(f"{picture}.json").write_text(json.dumps(told), encoding="utf-8")
        rows = well_formed("the hostile page is well formed", text.encode("utf-8"))
        elements = [row["n"] for row in rows if row["tag"] is not None]
        lines = [f"c487ae node {n} {outcome} no-name" for outcome in ("failed", "passed") for n in elements]
        lines.append("b5c3f8 node 1 failed judged by <script>hacked=9</script>\u2029\u202e")
        report = "\n".join([f"page {address}", *lines,
                            f"passed {len(elements)} failed {len(elements) + 1} cantTell 0 inapplicable 0\n"])
        with opened(browser, snapshot, report, "--shot", picture):
            same("nothing of the page runs or becomes an element", browser.execute_script("""
                return [typeof hacked, document.querySelectorAll('main script, script, img, svg, b, i, [onclick], [onerror], [onmouseover]').length,
                  document.querySelectorAll('html, head, body, main, title, style, header, footer').length]"""), ["undefined", 0, 8])
            text = browser.execute_script("return document.documentElement.textContent")
            for part in ("</title><script>hacked = 1</script> {{ 7 * 7 }} {% raw %}", "<img src=x onerror=hacked=2>", "</code></style><script>hacked=5</script>",
                         "</style><svg onload=hacked=8>&lt;b&gt;", "\u27e8U+202E\u27e9txet \u27e8U+2066\u27e9", "<script>hacked=9</script>", '?"><script>hacked=0</script>'):
                expect(f"the view shows {part[:40]!r}", part in text)
            links = browser.execute_script("return [...document.links].map((link) => link.protocol).filter((kind) => !['https:', 'file:'].includes(kind))")
            same("links of other kinds", links, [])


def blocks(path: pathlib.Path) -> list[str]:
    """The commands that a document shows."""
    return re.findall(r"```sh\n(.*?)```", path.read_text(encoding="utf-8"), re.DOTALL)


@pytest.mark.desk
def test_commands(folder: str) -> None:
    """The commands that the docs show lead from a page, and from many, to findings, where the desk is built."""
    commands = next(block for block in blocks(ROOT / "README.md") if "collector/view" in block)
    written = re.findall(r"> (\S+\.html)", commands)[0]
    for name in ("collector", "crates", "examples"):
        os.symlink(ROOT / name, os.path.join(folder, name))
    done = subprocess.run(["bash", "-c", commands], cwd=folder, stdin=subprocess.DEVNULL, capture_output=True, check=False)
    expect("the commands of README.md", done.returncode == 0 and done.stderr == b"", done.stderr)
    view = pathlib.Path(folder, written).read_text(encoding="utf-8")
    expect("they lead to the findings, with a picture", "Wenbrook Public Library" in view and "data:image/png" in view)
    snapshots = pathlib.Path(folder, "snapshots")
    snapshots.mkdir()
    for name in ("home", "old"):
        shutil.copy(SITE / f"{name}.json", snapshots)
    loop = next(block for block in blocks(DOCS) if block.startswith("for page in snapshots"))
    done = subprocess.run(["bash", "-c", loop], cwd=folder, stdin=subprocess.DEVNULL, capture_output=True, check=False)
    same("the loop over many pages", (done.returncode, done.stderr), (1, b""))
    same("what it writes", sorted(path.name for path in snapshots.iterdir()),
         [f"{name}.{kind}" for name in ("home", "old") for kind in ("html", "json", "txt")])


def test_view_picture(browser: Any, folder: str) -> None:
    """With a picture each target has its part of the page, and the outline stands around it."""
    picture, snapshot = os.path.join(folder, "page.png"), os.path.join(folder, "page.json")
    collected = collect_here(browser, SITE / "search.html", "--url", PAGES["search"], "--shot", picture)
    collected.write_shot(picture)
    pathlib.Path(snapshot).write_text(collected.text, encoding="utf-8")
    with opened(browser, snapshot, REPORT.replace("node 141", "node 4"), "--shot", picture):
        same("roles and names of the pictures", [name for role, name in accessible(browser) if role == "image"],
             [f"Part of the page around node {n}, which is outlined" for n in (71, 79, 123, 69)])
        same("a node that isn't drawn", browser.execute_script("return document.getElementById('cantTell-bc4a75-4').querySelector('.shot').innerText"),
             "Not drawn on the page.")
        # The outline, seen from the picture's own corner, is the node's box on the page.
        boxes = browser.execute_script("""
                return [71, 79, 123, 69].map((n) => {
                  const crop = document.querySelector(`[id$="-${n}"] .crop`);
                  const [part, mark, css] = [crop.getBoundingClientRect(), crop.firstChild.getBoundingClientRect(), getComputedStyle(crop)];
                  const [width, height] = css.backgroundSize.split(' ').map((side, i) => parseFloat(side) / 100 * [crop.clientWidth, crop.clientHeight][i]);
                  const [x, y] = css.backgroundPosition.split(' ').map((side, i) => parseFloat(side) / 100 * ([crop.clientWidth, crop.clientHeight][i] - [width, height][i]));
                  const scale = width / 1280;
                  return [mark.left - part.left - x, mark.top - part.top - y, mark.width, mark.height].map((side) => side / scale);
                });""")
        assert collected.shot is not None
        told = {int(n): box for n, box in json.loads(collected.shot.boxes)["boxes"].items()}
        off = [n for n, box in zip((71, 79, 123, 69), boxes) if any(abs(a - b) > 2 for a, b in zip(told[n], box))]
        same("outlines that aren't around their node", off, [])
