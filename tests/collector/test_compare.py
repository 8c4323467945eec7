"""What is new, what is mended and what stays between two audits."""
from __future__ import annotations

import json
import os
import pathlib
import re
import xml.etree.ElementTree as ET
from typing import NamedTuple

from silvervole.collect.ends import End

from ..support import COLLECTOR, ROOT, expect, refused, run, same

COMPARE = COLLECTOR / "compare"
NEW_FAILURE = 1
# Any rule does: what is compared are outcomes.
RULE = "c487ae"
REASONS = {"passed": "ok", "failed": "no-name", "cantTell": "judge-title"}
# The SHA-256 of the empty text (FIPS 180-4).
NO_BYTES = "e3b0c44298fc1c149afbf4c8996fb92427ae41e4649b934ca495991b7852b855"


class Part(NamedTuple):
    """An element of a small page, and what its audit says of it."""

    outcome: str
    tag: str
    text: str = ""
    attrs: dict[str, str] = {}


def snapshot_of(parts: tuple[Part, ...]) -> dict[str, object]:
    """A page with these elements in its body; each stands in rows 2 and 3 more than the one before."""
    rows: list[dict[str, object]] = [{"n": 1, "p": None, "tag": "html"}, {"n": 2, "p": 1, "tag": "body"}]
    for place, part in enumerate(parts):
        rows.append({"n": 2 * place + 3, "p": 2, "tag": part.tag, "attrs": [list(pair) for pair in part.attrs.items()]})
        rows.append({"n": 2 * place + 4, "p": 2 * place + 3, "text": part.text})
    return {"url": "https://library.example/", "nodes": rows}


def report_of(parts: tuple[Part, ...]) -> str:
    """The report of its audit."""
    outcomes = [part.outcome for part in parts]
    lines = [f"{RULE} node {2 * place + 3} {outcome} {REASONS[outcome]}" for place, outcome in enumerate(outcomes)]
    sums = (outcomes.count("passed"), outcomes.count("failed"), outcomes.count("cantTell"), 0 if parts else 1)
    return "\n".join(["page https://library.example/", *(lines or [f"{RULE} inapplicable"]),
                      "passed {} failed {} cantTell {} inapplicable {}".format(*sums)]) + "\n"


def reply_of(parts: tuple[Part, ...]) -> str:
    """The reply to `outcomes`; no evidence is compared."""
    outcomes = [{"automatic": part.outcome, "by": "", "digest": NO_BYTES, "evidence": "", "node": 2 * place + 3,
                 "outcome": part.outcome, "reason": REASONS[part.outcome], "rule": RULE} for place, part in enumerate(parts)]
    return json.dumps({"inapplicable": [], "outcomes": outcomes, "rev": 1})


def write_audit(folder: str, name: str, parts: tuple[Part, ...]) -> None:
    """The report, the snapshot and the replies of a page, as files of a folder."""
    snapshot = snapshot_of(parts)
    for ending, text in (("txt", report_of(parts)), ("json", json.dumps(snapshot)), ("outcomes", reply_of(parts)),
                         ("page", json.dumps({"rev": 1, "snapshot": snapshot}))):
        pathlib.Path(folder, f"{name}.{ending}").write_text(text, encoding="utf-8")


SAVE = Part("failed", "a", "", {"id": "save"})
PASSED_SAVE = SAVE._replace(outcome="passed")
BOOKS, NEWS = Part("failed", "a", "Books"), Part("failed", "a", "News")
PICTURE = Part("failed", "img", "", {"src": "a.png"})
OTHER = Part("passed", "p", "Some text")
MADE, MADE_ANEW = (Part("failed", "a", "", {"id": name}) for name in (":r1:", ":r7:"))
LONG = Part("failed", "p", "word " * 40)

# What is compared, the old page, the new one, and what changed: the kind and outcome, and the place.
CASES: tuple[tuple[str, tuple[Part, ...], tuple[Part, ...], list[str]], ...] = (
    ("nothing on two pages", (), (), []),
    ("what passes is not spoken of", (OTHER,), (OTHER, OTHER), []),
    ("the same failure", (BOOKS,), (BOOKS,), ['stays failed a "Books" at html > body > a (node 3)']),
    ("a failure that is new", (OTHER,), (OTHER, BOOKS), ['new failed a "Books" at html > body > a (node 5)']),
    ("a failure that is mended", (SAVE,), (PASSED_SAVE,), ["mended failed a at #save (node 3)"]),
    ("a failure that is gone", (OTHER, SAVE), (OTHER,), ["mended failed a at #save (node 5)"]),
    ("what passed fails", (PASSED_SAVE,), (SAVE,), ["new failed a at #save (node 3)"]),
    ("what was to judge fails", (BOOKS._replace(outcome="cantTell"),), (BOOKS,), ['new failed a "Books" at html > body > a (node 3)']),
    ("what failed is to judge", (BOOKS,), (BOOKS._replace(outcome="cantTell"),), ['new to judge a "Books" at html > body > a (node 3)']),
    ("what is to judge is judged", (BOOKS._replace(outcome="cantTell"),), (BOOKS._replace(outcome="passed"),),
     ['mended to judge a "Books" at html > body > a (node 3)']),
    ("numbers move, an id stays", (SAVE,), (OTHER, OTHER, SAVE), ["stays failed a at #save (node 7)"]),
    ("numbers and paths move, a label stays", (BOOKS,), (NEWS, BOOKS),
     ['new failed a "News" at html > body > a:nth-of-type(1) (node 3)', 'stays failed a "Books" at html > body > a:nth-of-type(2) (node 5)']),
    ("a label twice is told by its path", (BOOKS, BOOKS), (BOOKS._replace(outcome="passed"), BOOKS),
     ['mended failed a "Books" at html > body > a:nth-of-type(1) (node 3)', 'stays failed a "Books" at html > body > a:nth-of-type(2) (node 5)']),
    ("one label more", (BOOKS,), (BOOKS, BOOKS),
     ['new failed a "Books" at html > body > a:nth-of-type(2) (node 5)', 'stays failed a "Books" at html > body > a:nth-of-type(1) (node 3)']),
    ("without id and label a path tells", (PICTURE,), (OTHER, PICTURE), ["stays failed img at html > body > img (node 5)"]),
    ("one picture more", (PICTURE,), (PICTURE, PICTURE),
     ["new failed img at html > body > img:nth-of-type(2) (node 5)", "stays failed img at html > body > img:nth-of-type(1) (node 3)"]),
    ("ids that are made anew", (MADE,), (MADE_ANEW,), ["stays failed a at #\\:r7\\: (node 3)"]),
    ("a long text is no label", (LONG,), (LONG,), ["stays failed p at html > body > p (node 3)"]),
    ("another text at the same path", (BOOKS,), (NEWS,), ['stays failed a "News" at html > body > a (node 3)']),
)
LINE = re.compile(r"((?:new|mended|stays) (?:failed|to judge)): .*?: [a-z-]+: (.*)")


def changed(out: bytes) -> list[str]:
    """The changes that a comparison prints: kind, outcome and place."""
    return [f"{found[1]} {found[2]}" for line in out.decode("utf-8").splitlines() if (found := LINE.fullmatch(line))]


def suite_counts(path: str) -> tuple[int, int, int, int]:
    """How many tests, failures and tests that were passed over a JUnit file has, by its attributes; and its tests."""
    root = ET.parse(path).getroot()
    tests, failures, skipped = (int(root.attrib[name]) for name in ("tests", "failures", "skipped"))
    return tests, failures, skipped, len(root.findall("./testsuite/testcase"))


def test_compare(folder: str) -> None:
    """Each case by reports and by replies, as text and as JUnit XML."""
    junit = f"{folder}/junit.xml"
    for what, old, new, wanted in CASES:
        write_audit(folder, "old", old)
        write_audit(folder, "new", new)
        fails = any(line.startswith("new failed") for line in wanted)
        for reports, snapshots in (("txt", "json"), ("outcomes", "page")):
            code, out, err = run(f"{folder}/old.{reports}", f"{folder}/new.{reports}", "--old-snapshot", f"{folder}/old.{snapshots}",
                                 "--new-snapshot", f"{folder}/new.{snapshots}", "--junit", junit, program=COMPARE)
            same(f"{what} ({reports})", (code, changed(out), err), (NEW_FAILURE if fails else 0, wanted, ""))
            tests = len(wanted) or 1
            passing = sum(line.startswith("mended") for line in wanted) + (not wanted)
            failing = sum(line.startswith("new failed") for line in wanted)
            same(f"{what}: its JUnit XML ({reports})", suite_counts(junit), (tests, failing, tests - passing - failing, tests))


def test_compare_numbers(folder: str) -> None:
    """Without snapshots places are numbers; the last line counts; a new finding has what it means and what mends it."""
    write_audit(folder, "old", (BOOKS, OTHER))
    write_audit(folder, "new", (BOOKS, BOOKS))
    code, out, err = run(f"{folder}/old.txt", f"{folder}/new.outcomes", program=COMPARE)
    lines = out.decode("utf-8").splitlines()
    same("places without snapshots", (code, changed(out), err), (NEW_FAILURE, ["new failed node 5", "stays failed node 3"], ""))
    same("the last line", lines[-1], "new failed 1, new to judge 0, mended 0, stay 1")
    rule = next(rule for rule in json.loads((ROOT / "silvervole" / "data" / "rules.json").read_text(encoding="utf-8"))["rules"] if rule["id"] == RULE)
    advice = next(one for one in rule["reasons"] if one["reason"] == "no-name")
    same("what is said of a new finding", lines[2:4], [advice["means"], advice["mends"]])


def test_compare_folders(folder: str) -> None:
    """Folders of audits: pages by name, new pages, pages that are gone, and texts that XML or a terminal would trip over."""
    hostile = Part("failed", "a", 'a\x1b[1m<b>"&\u202e')
    old, new = (os.path.join(folder, name) for name in ("old", "new"))
    for path, pages in ((old, {"home": (BOOKS,), "gone": (NEWS,)}), (new, {"home": (BOOKS,), "start": (hostile,)})):
        os.mkdir(path)
        for name, parts in pages.items():
            write_audit(path, name, parts)
    junit = f"{folder}/junit.xml"
    code, out, err = run(old, new, "--junit", junit, program=COMPARE)
    same("folders", (code, out.decode("utf-8").splitlines()[0::4][:1], changed(out), err), (NEW_FAILURE, ["page https://library.example/"], [
        'stays failed a "Books" at html > body > a (node 3)',
        'new failed a "a\\u001b[1m<b>"&\\u202e" at html > body > a (node 3)'], ""))
    expect("a page that is new, and one that is gone", b"(a new page)" in out and b"(gone: NEW has no such page)" in out, out)
    same("the JUnit XML of folders", suite_counts(junit), (3, 1, 1, 3))
    os.unlink(f"{new}/start.txt")
    same("nothing new", run(old, new, program=COMPARE)[0], 0)


def test_compare_refusals(folder: str) -> None:
    """Words, files and folders that can't be compared."""
    write_audit(folder, "a", (BOOKS,))
    write_audit(folder, "b", ())
    os.mkdir(f"{folder}/empty")
    pathlib.Path(folder, "list.json").write_text('{"outcomes":[{"rule":"c487ae"}]}', encoding="utf-8")
    one, two = f"{folder}/a.txt", f"{folder}/b.txt"
    for what, end, says, words in (
            ("no words", End.USAGE, "usage", ()),
            ("one snapshot", End.USAGE, "go together", (one, two, "--old-snapshot", f"{folder}/a.json")),
            ("a file and a folder", End.USAGE, "both", (one, folder)),
            ("folders and snapshots", End.USAGE, "beside", (folder, folder, "--old-snapshot", one, "--new-snapshot", two)),
            ("a folder without a report", End.INPUT, "no report", (folder, f"{folder}/empty")),
            ("a file that isn't there", End.INPUT, "can't be read", (one, f"{folder}/none")),
            ("no report", End.INPUT, "no report", (one, COMPARE)),
            ("no reply", End.INPUT, "no reply of the desk to outcomes", (one, f"{folder}/list.json")),
            ("no snapshot", End.INPUT, "no snapshot", (one, two, "--old-snapshot", one, "--new-snapshot", two)),
            ("another page's snapshot", End.INPUT, "another page",
             (one, one, "--old-snapshot", f"{folder}/a.json", "--new-snapshot", f"{folder}/b.json")),
            ("a JUnit file that can't be written", End.OUTPUT, "can't be written", (one, two, "--junit", f"{folder}/no/junit.xml"))):
        refused(what, end, says, *words, program=COMPARE)
