"""The formats of `silvervole check` on the example site, whose failures stand in its README."""
from __future__ import annotations

import csv
import json
import pathlib
import re

import jsonschema
import junitparser
import pytest

from .samples import ROOT, TABLE, run

pytestmark = pytest.mark.desk
SITE = ROOT / "examples" / "library"
PAGES = ("home", "search", "old")
INPUTS = TABLE.rule("cf77f2").inputs
ACCEPTED = """[[accepted]]
rule = "c487ae"
place = "https://library.example/ html > body > footer > p:nth-of-type(2) > a"
reason = "The network mends it"
who = "ann"
until = 2999-12-31
"""


def meant() -> set[tuple[str, str, int]]:
    """The failures that the README names and that count by themselves: page, rule and node."""
    found, page = set(), ""
    for line in (SITE / "README.md").read_text(encoding="utf-8").splitlines():
        page = heading[1] if (heading := re.match(r"### `(\w+)\.html`", line)) else page
        if (row := re.search(r"`([0-9a-z]{6}) node (\d+) failed [a-z-]+` \|$", line)) and page in PAGES and row[1] not in INPUTS:
            found.add((page, row[1], int(row[2])))
    return found


@pytest.fixture(scope="module")
def checked(tmp_path_factory: pytest.TempPathFactory) -> pathlib.Path:
    """A folder with all formats of one check of three pages and of one that isn't there."""
    folder = tmp_path_factory.mktemp("checked")
    (folder / "accepted.toml").write_text(ACCEPTED, encoding="utf-8")
    formats = [word for name in ("json", "junit", "sarif", "gitlab", "github", "markdown", "csv") for word in (f"--{name}", folder / name)]
    status, out, error = run(ROOT / "bin" / "silvervole", "check", *(SITE / f"{name}.json" for name in PAGES), folder / "none.html",
                             "--accepted", folder / "accepted.toml", *formats, "--html", folder / "found.html")
    # 14, since one page couldn't be loaded, is above the 1 of a failure.
    assert status == 14 and "none.html" in error, error
    assert len(meant()) == 15 and "14 failed" in out.splitlines()[-1] and "1 accepted" in out.splitlines()[-1], out
    return folder


def test_json(checked: pathlib.Path) -> None:
    """The findings that failed are those of the README, one of them accepted."""
    found = json.loads((checked / "json").read_text(encoding="utf-8"))
    jsonschema.validate(found, json.loads((ROOT / "silvervole" / "data" / "findings.schema.json").read_text(encoding="utf-8")))
    names = {f"https://library.example/{'' if name == 'home' else name}": name for name in PAGES}
    failed = {(names[one["address"]], one["rule"]["id"], one["node"]) for one in found["findings"] if one["fails"]}
    accepted = {(names[one["address"]], one["rule"]["id"], one["node"]) for one in found["accepted"]}
    assert failed | accepted == meant() and accepted == {("home", "c487ae", 138)}
    assert [one["name"] for one in found["lost"]] == [str(checked / "none.html")]
    assert all(page["seconds"] > 0 and page["snapshot"].endswith(".json") for page in found["pages"])


def test_the_others_say_the_same(checked: pathlib.Path) -> None:
    """As many failures in each format, and the page that couldn't be checked in each."""
    suites = junitparser.JUnitXml.fromfile(str(checked / "junit"))
    assert (suites.failures, suites.errors) == (14, 1) and suites.time > 0
    run_of = json.loads((checked / "sarif").read_text(encoding="utf-8"))["runs"][0]
    failing = [result for result in run_of["results"] if result["kind"] == "fail" and not result["suppressions"]]
    assert len(failing) == 14 and run_of["invocations"][0]["executionSuccessful"] is False
    issues = json.loads((checked / "gitlab").read_text(encoding="utf-8"))
    assert [issue["severity"] for issue in issues].count("critical") == 14 and issues[-1]["severity"] == "blocker"
    lines = (checked / "github").read_text(encoding="utf-8").splitlines()
    assert len([line for line in lines if line.startswith("::error file=")]) == 14 and lines[0].startswith("::error title=Not checked::")
    # The collector writes the row of node n on line n + 1.
    assert re.search(r"file=[^,]*home\.json,line=52,title=failed%3A Button", lines[1])
    text = (checked / "markdown").read_text(encoding="utf-8")
    assert text.splitlines()[0].startswith("## Accessibility: 14 failed, ") and "### Failed (14)" in text and "### Not checked" in text
    rows = list(csv.reader((checked / "csv").read_text(encoding="utf-8-sig").splitlines()))
    assert len([row for row in rows if row[4] == "failed" and not row[2].startswith("counts under") and not row[9]]) == 14
    assert [row[0] for row in rows if row[4].startswith("not checked")] == [str(checked / "none.html")]
    page = (checked / "found.html").read_text(encoding="utf-8")
    assert "<title>14 failed, " in page and "none.html couldn&#39;t be checked" in page and (checked / "found-3.html").is_file()


def test_the_html_has_no_failure(checked: pathlib.Path) -> None:
    """The list of pages, and a view in which something is accepted, are audited themselves."""
    status, out, error = run(ROOT / "bin" / "silvervole", "check", checked / "found.html", checked / "found-1.html")
    assert status == 0 and out.splitlines()[-1].startswith("2 pages: 0 failed, "), out + error


@pytest.mark.parametrize("budget, status", [(14, 0), (13, 1)])
def test_budget(tmp_path: pathlib.Path, budget: int, status: int) -> None:
    """What is accepted doesn't count against the budget."""
    (tmp_path / "accepted.toml").write_text(ACCEPTED, encoding="utf-8")
    assert run(ROOT / "bin" / "silvervole", "check", *(SITE / f"{name}.json" for name in PAGES), "--budget", budget,
               "--accepted", tmp_path / "accepted.toml")[0] == status
