"""What counts by itself: a composite and not what it merges; and of a frame's document no rule on whole pages."""
from __future__ import annotations

import pathlib
import subprocess
import xml.etree.ElementTree as ET

import pytest

from silvervole.collect.ends import End
from silvervole.view.counting import FRAME

from ..support import DESK, expect, run, same
from .test_compare import COMPARE, NEW_FAILURE
from .test_outcomes import View

# A page with a link, a heading, and nothing to fold away; with or without a skip link and a main element.
PAGE = """{"url":"https://example.org/",%s"nodes":[
{"n":1,"p":null,"tag":"html","attrs":[["lang","en"]]},
{"n":2,"p":1,"tag":"title"},{"n":3,"p":2,"text":"Home"},
{"n":4,"p":1,"tag":"body"},
{"n":5,"p":4,"tag":"a","attrs":[["href","%s"]],"f":"rvft"},{"n":6,"p":5,"text":"Books"},
{"n":7,"p":4,"tag":"%s","attrs":[["id","top"]]},{"n":8,"p":7,"text":"Opening hours"}]}
"""
SKIP, BLAMELESS, WORST = (PAGE % ("", href, tag) for href, tag in (("#top", "h1"), ("/books", "h1"), ("/books", "p")))
IN_FRAME = PAGE % ('"frame":2,', "/books", "p")

FOUR = ("047fe0", "b40fd1", "ye5d6e", "3e12e1")
REASONS = {"047fe0": ("no-heading", "judge-heading-start"), "b40fd1": ("no-landmark", "judge-landmark"),
           "ye5d6e": ("no-skip-link", "judge-skip-link"), "3e12e1": ("no-collapse", "judge-collapse")}


def report(composite: str, *judged: str, title: str = "passed ok") -> str:
    """The desk's report of these rules: those that are to judge, the others of the four failed, and the composite."""
    four = [f"{rule} node 1 {'cantTell' if rule in judged else 'failed'} {REASONS[rule][rule in judged]}" for rule in FOUR]
    lines = [f"2779a5 node 1 {title}", "b5c3f8 node 1 passed ok", "c487ae node 5 passed ok", *four, f"cf77f2 node 1 {composite} merged"]
    outcomes = [line.split()[3] for line in lines]
    sums = (outcomes.count("passed"), outcomes.count("failed"), outcomes.count("cantTell"))
    return "\n".join(["page https://example.org/", *lines, "c4a8a4 inapplicable", "passed {} failed {} cantTell {} inapplicable 1\n".format(*sums)])


WITH_SKIP, WITH_HEADING, WITH_NONE = report("cantTell", "047fe0", "ye5d6e"), report("cantTell", "047fe0"), report("failed")
BENEATH = {"heading": ["of it to judge: 047fe0", "of it failed: b40fd1", "of it failed: ye5d6e", "of it failed: 3e12e1"],
           "none": ["of it failed: 047fe0", "of it failed: b40fd1", "of it failed: ye5d6e", "of it failed: 3e12e1"]}
COMPOSITE = "cf77f2 Bypass Blocks of Repeated Content: merged: html at html (node 1)"
# The old and the new page with their reports, and the status, the composite's line, what stands beneath it, and the last line.
CHANGES = (
    ("a page that lost its skip link", (SKIP, WITH_SKIP), (BLAMELESS, WITH_HEADING), 0, f"stays to judge: {COMPOSITE}", BENEATH["heading"],
     "new failed 0, new to judge 0, mended 0, stay 1"),
    ("a page that lost all four ways", (BLAMELESS, WITH_HEADING), (WORST, WITH_NONE), NEW_FAILURE, f"new failed: {COMPOSITE}", BENEATH["none"],
     "new failed 1, new to judge 0, mended 0, stay 0"),
    ("a page that got a heading", (WORST, WITH_NONE), (BLAMELESS, WITH_HEADING), 0, f"new to judge: {COMPOSITE}", BENEATH["heading"],
     "new failed 0, new to judge 1, mended 0, stay 0"))


def write(folder: str, name: str, page: str, told: str) -> None:
    """A page's snapshot and its report in a folder."""
    pathlib.Path(folder, f"{name}.json").write_text(page, encoding="utf-8")
    pathlib.Path(folder, f"{name}.txt").write_text(told, encoding="utf-8")


def compared(folder: str) -> tuple[int, list[str]]:
    """The status and the lines of a comparison of the files old and new."""
    code, out, err = run(f"{folder}/old.txt", f"{folder}/new.txt", "--old-snapshot", f"{folder}/old.json", "--new-snapshot", f"{folder}/new.json",
                         "--junit", f"{folder}/junit.xml", program=COMPARE)
    same("nothing on standard error", err, "")
    return code, out.decode("utf-8").splitlines()


def test_merged_changes(folder: str) -> None:
    """Of the four ways past what repeats the composite alone counts, and fails a pipeline only where it fails."""
    for what, old, new, status, line, beneath, last in CHANGES:
        write(folder, "old", *old)
        write(folder, "new", *new)
        code, lines = compared(folder)
        same(what, (code, lines[1], [line[:line.index(":") + 8] for line in lines if line.startswith("of it ")], lines[-1]),
             (status, line, beneath, last))
        root = ET.parse(f"{folder}/junit.xml").getroot()
        told = [case.findtext("system-out") for case in root.iter("testcase")]
        same(f"{what}: its JUnit XML", (root.attrib["failures"], [text.splitlines()[2][:14] for text in told if text]),
             (str(int(status == NEW_FAILURE)), ["failed: ye5d6e"]))


def test_frame_counts(folder: str) -> None:
    """Of what stands in a frame title, language and bypass rules are left out of comparisons and of the view, and both say so."""
    told = report("failed", title="failed no-title")
    write(folder, "old", BLAMELESS, WITH_HEADING)
    write(folder, "new", IN_FRAME, told)
    same("a frame's document", compared(folder), (0, ["page https://example.org/", FRAME, "new failed 0, new to judge 0, mended 0, stay 0"]))
    write(folder, "new", WORST, told)
    same("the same of a page", compared(folder)[0], NEW_FAILURE)
    view = View(told, IN_FRAME, "frame.txt")
    same("its title", view.words("title"), ["0 failed, 0 to judge: findings on Home"])
    same("its rules", (view.ids("rule"), view.ids("merged")), (["passed-c487ae"], []))
    expect("the line that says so", f"{FRAME}.".capitalize() in view.words("p"), view.words("p"))
    said = " ".join(view.words("p"))
    expect("the criteria that are left out aren't said to have nothing to judge", "2.4.2 Page Titled" not in said, said)
    page = View(told, WORST, "page.txt")
    same("the same of a page, by the view", (page.words("title"), page.ids("rule")), (
        ["2 failed, 0 to judge: findings on Home"], ["failed-2779a5", "failed-cf77f2", "passed-b5c3f8", "passed-c487ae"]))


@pytest.mark.desk
def test_blameless_page(folder: str) -> None:
    """By the built desk: a page without a skip link is new, and nothing that is new failed."""
    done = subprocess.run([str(DESK), "-", "audit"], input=BLAMELESS.encode("utf-8"), capture_output=True, check=False)
    told = done.stdout.decode("utf-8")
    same("the desk's own status and sums count each rule", (done.returncode, "failed 3 cantTell 4" in told.splitlines()[-1]), (1, True))
    for name in ("old", "new"):
        pathlib.Path(folder, name).mkdir()
        write(f"{folder}/{name}", "other", BLAMELESS, told)
    write(f"{folder}/new", "home", BLAMELESS, told)
    code, out, err = run(f"{folder}/old", f"{folder}/new", program=COMPARE)
    same("a page that is new", (code, err, out.decode("utf-8").splitlines()[-1]),
         (End.WRITTEN, "", "new failed 0, new to judge 3, mended 0, stay 3"))
