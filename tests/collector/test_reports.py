"""Reports, the rules' data, and what the view refuses."""
from __future__ import annotations

import os
import pathlib
import re
from typing import Any

from silvervole.collect.ends import End
from silvervole.view.document import findings_document
from silvervole.view.page import read_page
from silvervole.view.paths import css_path
from silvervole.view.rules import read_rules

from ..support import FINDINGS, OWN_PAGES, PAGES, ROOT, SITE, VIEW, expect, open_file, page, refused, run, same, take_rows
from .test_site import meant_defects

REASONS = ROOT / "crates" / "rule_core" / "src" / "reason.rt"
REPORT = """page https://library.example/old
2779a5 node 1 failed no-title
b5c3f8 inapplicable
passed 0 failed 1 cantTell 0 inapplicable 1
"""


def test_rules() -> None:
    """The data file has a word on all that the desk reports, and docs/use/findings.md is made from it."""
    table = read_rules()
    expect("docs/use/findings.md is made from silvervole/data/rules.json", FINDINGS.read_text(encoding="utf-8") == findings_document(table))
    lines, _ = meant_defects()
    for line in sorted({line for page_lines in lines.values() for line in page_lines}):
        rule, _, _, outcome, reason = line.split()
        expect(f"a word on {rule} {outcome} {reason}", table.rule(rule).advice_for(reason, outcome) is not None)
    known = {reason for rule in table.rules.values() for reason, _ in rule.advice}
    same("the reasons are those of the desk", sorted(known | {"ok"}),
         sorted(re.findall(r'Reason::\w+ => "([a-z-]+)"', REASONS.read_text(encoding="utf-8"))))
    described = re.findall(r"^\| [0-9]+ \| ([0-9a-z]{6}) \|", (ROOT / "docs" / "use" / "rules.md").read_text(encoding="utf-8"), re.MULTILINE)
    same("rules of docs/use/rules.md without a word on them", [identity for identity in described if identity not in table.rules], [])
    texts = [text for rule in table.rules.values() for advice in rule.advice.values() for text in (advice.means, advice.mends)]
    expect("each word on a reason is a sentence", all(text and text[-1] in ".?" for text in texts))


def test_refused_reports(folder: str) -> None:
    """What is no report, no snapshot, or a report of another page."""
    def refuses(what: str, says: str, text: str) -> None:
        report = pathlib.Path(folder, "report.txt")
        report.write_text(text, encoding="utf-8")
        refused(what, End.INPUT, says, SITE / "old.json", report, program=VIEW)

    refuses("an empty report", "it is empty", "")
    refuses("another text", "no first line", "hello\nhello\nhello\n")
    refuses("a report that breaks off", "last line", REPORT[:-5])
    refuses("a report with a line missing", "doesn't count", REPORT.replace("b5c3f8 inapplicable\n", ""))
    refuses("a line of another form", "line 2", REPORT.replace("node 1", "node one"))
    refuses("a report of no address", "no first line", REPORT.replace("https://library.example/old", "javascript:alert(1)"))
    refuses("a report of another page", "is of https://library.example/, the snapshot of https://library.example/old",
            REPORT.replace("/old", "/"))
    refuses("a report with a strange node", "node 999", REPORT.replace("node 1", "node 999"))
    report = pathlib.Path(folder, "report.txt")
    report.write_text(REPORT, encoding="utf-8")
    refused("no snapshot", End.INPUT, "no snapshot", report, report, program=VIEW)
    refused("a report that isn't there", End.INPUT, "can't be read", SITE / "old.json", f"{folder}/none", program=VIEW)
    refused("no report", End.USAGE, "usage", SITE / "old.json", program=VIEW)
    refused("a picture that isn't there", End.INPUT, "can't be read", SITE / "old.json", report, "--shot", f"{folder}/none", program=VIEW)
    picture = os.path.join(folder, "page.png")
    pathlib.Path(picture).write_bytes(b"GIF89a")
    pathlib.Path(f"{picture}.json").write_text("[]", encoding="utf-8")
    refused("a picture without boxes", End.INPUT, "isn't as --shot", SITE / "old.json", report, "--shot", picture, program=VIEW)
    pathlib.Path(f"{picture}.json").write_text('{"snapshot":"","width":1,"height":1,"boxes":{}}', encoding="utf-8")
    refused("a picture in another form", End.INPUT, "PNG", SITE / "old.json", report, "--shot", picture, program=VIEW)
    pathlib.Path(picture).write_bytes(b"\x89PNG\r\n\x1a\n")
    refused("a picture of another snapshot", End.INPUT, "another snapshot", SITE / "old.json", report, "--shot", picture, program=VIEW)
    with open(report, "rb") as stdin:
        code, out, err = run(SITE / "old.json", "-", program=VIEW, stdin=stdin)
    expect("a report from standard input", code == 0 and err == "" and b"<title>1 failed" in out, err)
    with open("/dev/full", "wb") as full:
        code, _, err = run(SITE / "old.json", report, program=VIEW, stdout=full)
    expect("a view on a full disk", code == End.OUTPUT and err.count("\n") == 1, err)
    pathlib.Path(folder, "jinja2.py").write_text("raise ImportError", encoding="utf-8")
    refused("no jinja2", End.BROWSER, "jinja2 isn't there", SITE / "old.json", report, program=VIEW,
            env={**os.environ, "PYTHONPATH": folder})


# The element that has the number in a snapshot, and the one that a path finds.
FOUND = """
const walker = document.createTreeWalker(document, NodeFilter.SHOW_ELEMENT | NodeFilter.SHOW_TEXT);
const nodes = [null];
while (walker.nextNode()) nodes.push(walker.currentNode);
return arguments[0].filter(([n, path]) => {
  const found = document.querySelectorAll(path);
  return found.length !== 1 || found[0] !== nodes[n];
});
"""
ODD = """<p id='a.b'>x</p><p id='1st'>x</p><p id='-'>x</p><p id='-2'>x</p><p id='x"y z'>x</p><p id='same'>x</p><p id='SAME'>y</p>
<svg><a><title>t</title></a><foreignObject><a>x</a></foreignObject></svg><div><a>x</a></div><o:p>x</o:p><b>x</b><b>y</b><i>z</i>
<script>
const space = 'http://www.w3.org/1999/xhtml';
document.body.append(document.createElementNS(space, 'DIV'), document.createElementNS('urn:x', 'div'), document.createElement('div'));
</script>"""


def test_paths(browser: Any) -> None:
    """Each element's CSS path finds it, and nothing else."""
    for name in PAGES:
        paths_find(browser, SITE / f"{name}.html")
    paths_find(browser, OWN_PAGES / "facts.html")
    with page(ODD) as path:
        paths_find(browser, path)
    with page(whole=f"<html><p id=Same>x<p id=same>y{ODD}") as path:
        paths_find(browser, path)


def paths_find(browser: Any, path: Any) -> None:
    """Expects the paths of all elements of a page to find them."""
    open_file(browser, path)
    text, _ = take_rows(browser)
    shown = read_page(text.encode("utf-8"), str(path))
    paths = [[node.number, css_path(shown, node)] for node in shown.nodes.values() if node.is_element]
    same(f"{os.path.basename(path)}: paths that don't find their element", browser.execute_script(FOUND, paths), [])
