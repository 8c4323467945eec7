"""`silvervole cases` with a real browser: pages of files and of a server, what isn't HTML, pages that would move on; and the cases of the repository."""
from __future__ import annotations

import json
import os
import pathlib
import re
import signal
import subprocess
import time

import pytest

from silvervole.books import BOOKS
from silvervole.collect.ends import End
from silvervole.view.rules import read_rules

from ..processes import children, is_alive
from ..standin import at_terminal, desk
from ..support import ROOT, expect, run, same
from .server import ANSWERS, HTML, Answer, ServePages, html

COMMAND = ROOT / "collector" / "cases"
CASES = ROOT / "examples" / "cases"
LEFT = re.compile(r"^\| `([0-9a-z]{6})` \| (untold|wrong) \| ([^|]+) \|", re.MULTILINE)
MOVING = {"refresh": "<meta http-equiv=refresh content='0; url=/good.html'><p>old", "script": "<p>old<script>location.href = '/good.html'</script>",
          "anew": "<meta http-equiv=refresh content=0><p>old"}


def listed(*pages: str, rule: str = "c487ae") -> str:
    """A list of a case for each page."""
    return json.dumps({"testcases": [
        {"ruleId": rule, "ruleName": "Link", "testcaseId": f"c{place}", "testcaseTitle": page, "expected": "failed", "url": f"https://cases.example/{page}",
         "relativePath": page} for place, page in enumerate(pages, 1)]})


def test_pages(serve_pages: ServePages, tmp_path: pathlib.Path) -> None:
    """Each page is collected as it is written; one that isn't HTML is told apart, and one that doesn't load is a line and the status."""
    pages = {f"/{name}.html": Answer(HTML, html(body)) for name, body in MOVING.items()}
    names = (*(path[1:] for path in pages), "drawing.svg", "good.html", "none.html")
    base = serve_pages({**pages, "/testcases.json": Answer("application/json", listed(*names).encode("utf-8"))})
    env, out = desk(tmp_path), tmp_path / "out"
    code, text, err = run(f"{base}/testcases.json", "--out", out, "--jobs", "2", "--earl", tmp_path / "earl", program=COMMAND, env=env)
    lines = text.decode("utf-8").splitlines()
    same("the status of a page that doesn't load", code, End.LOAD)
    same("what is said of it", err, f"cases: none.html: status 14: the page doesn't load: {base}/none.html: the server answered with status 404\n")
    expect("what isn't HTML is told apart", lines[0].startswith("not HTML: c487ae c4: ") and "image/svg+xml" in lines[0], lines[0])
    same("the sums", lines[-1].split()[:6], ["total", "4", "4", "0", "0", "2"])
    for name in MOVING:
        snapshot = json.loads((out / "c487ae" / f"{name}.html.json").read_bytes())
        same(f"the address of {name}", snapshot["url"], f"https://cases.example/{name}.html")
        expect(f"{name} stays where it is", any(row.get("text") == "old" for row in snapshot["nodes"]))
    outcomes = [one["result"]["outcome"] for one in json.loads((tmp_path / "earl").read_bytes())["@graph"][1:]]
    same("the report", outcomes, ["earl:failed"] * 3 + ["earl:untested", "earl:failed", "earl:untested"])


def test_folder(tmp_path: pathlib.Path) -> None:
    """Pages of a folder, of which one would move on; more than the desk takes at once come out in the list's order."""
    names = [f"page-{number}.html" for number in range(66)]
    for name in names:
        (tmp_path / name).write_bytes(ANSWERS["/good.html"].body)
    (tmp_path / "list").write_text(listed(*names, rule="b5c3f8"), encoding="utf-8")
    code, text, err = run(tmp_path / "list", tmp_path, program=COMMAND, env=desk(tmp_path))
    lines = text.decode("utf-8").splitlines()
    same("the status of a wrong grade", (code, err), (End.FAILED, ""))
    same("the cases in their order", [re.match(r"wrong: b5c3f8 (\w+): expected failed, found inapplicable", line)[1] for line in lines[:66]],  # type: ignore[index]
         [f"c{place}" for place in range(1, 67)])


def test_progress(tmp_path: pathlib.Path) -> None:
    """A terminal sees how far it is."""
    pytest.importorskip("rich", reason="Python's rich isn't there (on Debian: apt-get install python3-rich)")
    (tmp_path / "page.html").write_bytes(ANSWERS["/good.html"].body)
    (tmp_path / "list").write_text(listed("page.html"), encoding="utf-8")
    code, text = at_terminal("cases", str(tmp_path / "list"), env=desk(tmp_path))
    expect("it is told", code == 0 and "0 of 1 checked; page.html" in text and "1 consistent" in text, text)


def test_interrupt(base: str, tmp_path: pathlib.Path) -> None:
    """An interrupt closes the browsers, and is one line."""
    (tmp_path / "list").write_text(listed("never", "never?2", "never?3"), encoding="utf-8")
    command = subprocess.Popen([COMMAND, tmp_path / "list", base, "--jobs", "2"], stdin=subprocess.DEVNULL, stdout=subprocess.PIPE, stderr=subprocess.PIPE,
                               env=desk(tmp_path))
    begun = time.monotonic() + 60
    while len(children(command.pid)) < 8 and time.monotonic() < begun:
        time.sleep(0.2)
    started = children(command.pid)
    os.kill(command.pid, signal.SIGINT)
    out, err = command.communicate()
    same("the status and the line", (command.returncode, out, err), (End.INTERRUPTED, b"", b"cases: interrupted\n"))
    end = time.monotonic() + 20
    while any(map(is_alive, started)) and time.monotonic() < end:
        time.sleep(0.2)
    same("processes that are left", list(filter(is_alive, started)), [])


@pytest.mark.desk
@pytest.mark.parametrize("book", BOOKS)
def test_own_cases(tmp_path: pathlib.Path, book: str) -> None:
    """Of the cases of the repository those come out otherwise that its README names with their reasons; the rules that the book hasn't are named."""
    code, text, err = run(CASES / "testcases.json", "--book", book, "--timeout", "600", "--earl", tmp_path / "earl", program=COMMAND)
    out = text.decode("utf-8")
    rules = read_rules().of_book(book)
    readme = (CASES / "README.md").read_text(encoding="utf-8")
    named = {(grade, rule, f"{rule}-{case.strip()}") for rule, grade, cases in LEFT.findall(readme) if rule in rules for case in cases.split(",")}
    same("the cases that aren't correct", sorted(re.findall(r"^(untold|wrong): (\w+) (\S+): ", out, re.MULTILINE)), sorted(named))
    expect("no page is lost", err == "" and "not HTML" not in out, err)
    same("the status", code, End.FAILED if any(grade == "wrong" for grade, *_ in named) else End.WRITTEN)
    given = json.loads((CASES / "testcases.json").read_bytes())["testcases"]
    others = list(dict.fromkeys(case["ruleId"] for case in given if case["ruleId"] not in rules))
    expect("the rules that the book hasn't", not others or f"rules that the book of {book} hasn't: {', '.join(others)}\n" in out, out)
    outcomes = [one["result"]["outcome"] for one in json.loads((tmp_path / "earl").read_bytes())["@graph"][1:]]
    sums = list(map(int, out.splitlines()[-1].split()[1:6]))
    same("the report counts as the table does", [len(outcomes), outcomes.count("earl:cantTell"), outcomes.count("earl:untested")], [sums[0], sums[2], sums[4]])
    same("a row for each rule", re.findall(r"^([0-9a-z]{6})  ", out, re.MULTILINE), list(rules))
