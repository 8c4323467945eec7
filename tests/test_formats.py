"""Each format says what was found, and is read back by a reader that isn't ours or held against its published rules."""
from __future__ import annotations

import csv
import io
import json
import pathlib
import re
from typing import Any

import jsonschema
import junitparser
import pytest

from silvervole.formats.findings_json import write_json
from silvervole.formats.github import write_github
from silvervole.formats.gitlab import write_gitlab
from silvervole.formats.html_files import html_files
from silvervole.formats.junit import write_junit
from silvervole.formats.listing import Listing
from silvervole.formats.markdown import write_markdown
from silvervole.formats.options import FORMATS
from silvervole.formats.table import HEADER, write_csv

from .samples import FAILURES, ROOT, SHOP, SHOP_HTML, TABLE, element, listing_of, reply, run, shop, together, words

HOSTILE = 'a\x1b[1m `x` ``y`` <script>alert(1)</script> | @everyone ::error::no\n%0A, "q" \u202e =1+1 ]]>'


def shop_listing(**about: Any) -> Listing:
    """The shop's findings."""
    return listing_of(shop(), SHOP, **about)


def hostile_listing() -> Listing:
    """A page whose texts try to be more than texts."""
    snapshot = {"url": "https://shop.example/", "nodes": [
        element(1, None, "html"), element(2, 1, "title"), words(3, 2, "=" + HOSTILE), element(4, 1, "a", title=HOSTILE, id=HOSTILE, href="x")]}
    return listing_of(snapshot, reply(("c487ae", 4, "cantTell", "failed", "judge-title", '=cmd|"x" @bob', HOSTILE)))


def test_which_findings_fail() -> None:
    """Three of the shop's seven failed lines fail: the inputs of the composite stand beneath it."""
    listing = shop_listing()
    assert {(entry.rule.id, entry.target.number) for entry in listing if entry.fails} == FAILURES
    composite = next(entry for entry in listing if entry.rule.id == "cf77f2")
    assert [entry.rule.id for entry in composite.beneath] == ["047fe0", "b40fd1", "ye5d6e", "3e12e1"]
    assert [entry.outcome for entry in listing] == ["failed"] * 3 + ["cantTell"] + ["passed"] * 2


def test_json() -> None:
    """The JSON meets its schema, and has what the HTML has."""
    schema = json.loads((ROOT / "silvervole" / "data" / "findings.schema.json").read_text(encoding="utf-8"))
    jsonschema.Draft202012Validator.check_schema(schema)
    for listing in (shop_listing(), shop_listing(seconds=0.5, file="shop.html"), hostile_listing()):
        jsonschema.Draft202012Validator(schema).validate(json.loads(write_json(listing)))
    found = json.loads(write_json(shop_listing()))
    cart = next(one for one in found["findings"] if one["node"] == 6)
    assert (cart["outcome"], cart["path"], cart["start_tag"], cart["fails"]) == ("failed", "#cart", '<a id="cart" href="/cart">', True)
    assert [one["number"] for one in cart["rule"]["criteria"]] == ["2.4.4", "4.1.2"]
    assert found["pages"][0]["counts"] == {"failed": 3, "cantTell": 1, "passed": 2}
    assert [len(one["beneath"]) for one in found["findings"]] == [0, 0, 4, 0, 0, 0]
    assert [one["fails"] for one in found["findings"][2]["beneath"]] == [False] * 4


def test_json_of_a_reply() -> None:
    """The evidence, who judged, and the rule's own outcome stand in the JSON."""
    found = json.loads(write_json(listing_of(shop(), reply(("c4a8a4", 1, "cantTell", "passed", "judge-title", "bob", "Shop")))))
    one = found["findings"][0]
    assert (one["judged_by"], one["automatic"], one["outcome"], one["evidence"]) == ("bob", "cantTell", "passed", {"text": "Shop", "language": "en"})
    assert found["pages"][0]["revision"] == 3 and found["fails"] is False


def test_schema_refuses() -> None:
    """The schema is no formality: a finding without a member, or with one more, is refused."""
    schema = json.loads((ROOT / "silvervole" / "data" / "findings.schema.json").read_text(encoding="utf-8"))
    found = json.loads(write_json(shop_listing()))
    del found["findings"][0]["fingerprint"]
    with pytest.raises(jsonschema.ValidationError):
        jsonschema.validate(found, schema)
    found = json.loads(write_json(shop_listing()))
    found["findings"][2]["beneath"][0]["more"] = 1
    with pytest.raises(jsonschema.ValidationError):
        jsonschema.validate(found, schema)


def test_junit(tmp_path: pathlib.Path) -> None:
    """junitparser reads suites with times and files, a failure for each finding that fails, and what is passed over."""
    path = tmp_path / "junit.xml"
    path.write_bytes(write_junit(together(shop_listing(seconds=0.25, snapshot="audit/shop.json"), hostile_listing())))
    suites = list(junitparser.JUnitXml.fromfile(str(path)))
    assert [(suite.name, suite.tests, suite.failures, suite.skipped, suite.time) for suite in suites] == [
        ("https://shop.example/", 7, 3, 1, 0.25), ("https://shop.example/", 1, 1, 0, 0.0)]
    cases = list(suites[0])
    assert [case.time for case in cases][:2] == [0.25, None]
    assert {case._elem.get("file") for case in cases[1:]} == {"audit/shop.json"}
    failed = {case.classname[:6]: case.result[0] for case in cases if isinstance(next(iter(case.result), None), junitparser.Failure)}
    assert set(failed) == {"c487ae", "23a2a8", "cf77f2"} and failed["c487ae"].message == "no-name"
    assert "Put a text into the link that says where it leads." in failed["c487ae"].text
    composite = next(case for case in cases if case.classname.startswith("cf77f2"))
    assert [line[:14] for line in composite.system_out.splitlines()] == [f"failed: {rule}" for rule in ("047fe0", "b40fd1", "ye5d6e", "3e12e1")]


def test_gitlab() -> None:
    """Code Quality's published rules: members, severities, one fingerprint each, a relative path, no mark at the front."""
    data = write_gitlab(together(shop_listing(file=str(ROOT / "examples" / "library" / "home.html")), hostile_listing()))
    assert not data.startswith(b"\xef\xbb\xbf")
    issues = json.loads(data)
    assert len({issue["fingerprint"] for issue in issues}) == len(issues) == 5
    for issue in issues:
        assert isinstance(issue["description"], str) and isinstance(issue["check_name"], str)
        assert issue["severity"] in ("info", "minor", "major", "critical", "blocker")
        assert not issue["location"]["path"].startswith(("/", "./")) and issue["location"]["lines"]["begin"] >= 1
    assert [issue["severity"] for issue in issues] == ["critical"] * 4 + ["info"]


def parts_of(line: str) -> tuple[str, dict[str, str], str]:
    """A workflow command's kind, properties and message, by GitHub's published rules of their spelling."""
    found = re.fullmatch(r"::(error|warning|notice) ([^:]*)::(.*)", line)
    assert found is not None, line
    properties = dict(part.split("=", 1) for part in found[2].split(","))

    def spelt(text: str, *more: tuple[str, str]) -> str:
        for code, character in (*more, ("%0D", "\r"), ("%0A", "\n"), ("%25", "%")):
            text = text.replace(code, character)
        return text

    return found[1], {name: spelt(value, ("%3A", ":"), ("%2C", ",")) for name, value in properties.items()}, spelt(found[3])


def test_github(tmp_path: pathlib.Path) -> None:
    """A command for each finding, on the line of the page's own file; a page's texts make no command."""
    (tmp_path / "shop.html").write_text(SHOP_HTML, encoding="utf-8")
    lines = [parts_of(line) for line in write_github(shop_listing(file=str(tmp_path / "shop.html"))).decode("utf-8").splitlines()]
    assert [(kind, properties["line"], properties["title"]) for kind, properties, _ in lines] == [
        ("error", "5", "failed: Link has non-empty accessible name"), ("error", "8", "failed: Image has non-empty accessible name"),
        ("error", "2", "failed: Bypass Blocks of Repeated Content"), ("notice", "2", "to judge: HTML page title is descriptive")]
    assert lines[0][2].startswith("The link has no name") and 'Start tag: <a id="cart" href="/cart">' in lines[0][2]
    hostile = write_github(hostile_listing()).decode("utf-8").splitlines()
    assert len(hostile) == 1 and "\x1b" not in hostile[0] and "::error::no" in parts_of(hostile[0])[2]


def test_lines_that_cannot_be_told(tmp_path: pathlib.Path) -> None:
    """A script put a second picture onto the page: which of both stands in the file isn't known, so the line is that around them."""
    (tmp_path / "shop.html").write_text(SHOP_HTML, encoding="utf-8")
    snapshot = shop()
    snapshot["nodes"].append(element(10, 5, "img", src="a.png"))
    issues = json.loads(write_gitlab(listing_of(snapshot, SHOP, file=str(tmp_path / "shop.html"))))
    assert [issue["location"]["lines"]["begin"] for issue in issues] == [5, 4, 2, 2]


def test_markdown() -> None:
    """New failures come first; what a page says stays code."""
    text = write_markdown(shop_listing()).decode("utf-8")
    assert text.startswith("## Accessibility: 3 failed, 1 to judge, 2 passed\n\n### Failed (3)\n")
    assert '- `<a id="cart" href="/cart">` at `#cart` on `https://shop.example/`.\n' in text
    assert text.index("### Failed") < text.index("### For a person to judge (1)") and "### Passed" not in text


def test_markdown_as_github_shows_it() -> None:
    """GitHub's own reader of Markdown makes no markup of what a page says."""
    status, html, error = run("cmark-gfm", "--unsafe", "-e", "autolink", "-e", "table", stdin=write_markdown(hostile_listing()).decode("utf-8"))
    assert (status, error) == (0, "")
    assert "<script" not in html and html.count("<a href=") == 1 and "<table" not in html
    without_code = re.sub(r"<code>.*?</code>", "", html, flags=re.DOTALL)
    assert "@everyone" not in without_code and "@bob" not in without_code


def test_markdown_mentions_nobody() -> None:
    """GitHub looks for names with @ in the text that is shown: none is whole outside of code."""
    listing = listing_of(shop(), reply(
        ("cf77f2", 1, "failed", "failed", "merged", "", ""), ("047fe0", 1, "cantTell", "failed", "judge-heading-start", "@bob", "")))
    text = write_markdown(listing).decode("utf-8")
    assert "judged by @<!-- -->bob" in text and "@bob" not in text


def test_markdown_is_never_longer_than_a_comment() -> None:
    """Three thousand failures: 60,000 bytes at most, and the last line counts what is left out."""
    links = 3000
    snapshot = {"url": "https://shop.example/", "nodes": [
        element(1, None, "html"), *(element(number, 1, "a", href=f"/{number}") for number in range(2, links + 2))]}
    lines = [f"c487ae node {number} failed no-name" for number in range(2, links + 2)]
    text = "\n".join(["page https://shop.example/", *lines, f"passed 0 failed {links} cantTell 0 inapplicable 0"]) + "\n"
    data = write_markdown(listing_of(snapshot, text))
    assert 59_000 < len(data) <= 60_000
    shown = data.count(b"\n- ")
    assert data.decode("utf-8").splitlines()[-1] == f"Left out, since a comment holds no more: {links - shown}."


def test_csv(tmp_path: pathlib.Path) -> None:
    """Python's csv and a spreadsheet read the same cells; no cell of a page is computed."""
    path = tmp_path / "findings.csv"
    path.write_bytes(write_csv(together(shop_listing(), hostile_listing())))
    rows = list(csv.reader(io.StringIO(path.read_text(encoding="utf-8-sig"))))
    assert tuple(rows[0]) == HEADER and {len(row) for row in rows} == {len(HEADER)}
    cart = next(row for row in rows if row[5] == "#cart")
    assert cart[:8] == ["https://shop.example/", "Shop", "c487ae Link has non-empty accessible name",
                        "2.4.4 Link Purpose (In Context), 4.1.2 Name, Role, Value", "failed", "#cart", '<a id="cart" href="/cart">', ""]
    assert [row[2] for row in rows if row[2].startswith("counts under")][0] == (
        "counts under cf77f2: 047fe0 Document has heading for non-repeated content")
    assert not any(cell.startswith(("=", "+", "-", "@")) for row in rows for cell in row)
    status, _, error = run("ssconvert", path, tmp_path / "again.csv")
    assert status == 0, error
    # To a spreadsheet the quote at the front of a cell says that a text follows, and is no part of it.
    again = csv.reader(io.StringIO((tmp_path / "again.csv").read_text(encoding="utf-8-sig")))
    assert list(again) == [[cell.removeprefix("'") for cell in row] for row in rows]


def test_html(tmp_path: pathlib.Path) -> None:
    """Of one page the view itself; of two a list that leads to both."""
    one = list(html_files(shop_listing(), str(tmp_path / "found.html")))
    assert [path for path, _ in one] == [str(tmp_path / "found.html")] and b"<title>3 failed, 1 to judge" in one[0][1]
    two = dict(html_files(together(shop_listing(), hostile_listing()), str(tmp_path / "found.html")))
    assert sorted(two) == [str(tmp_path / name) for name in ("found-1.html", "found-2.html", "found.html")]
    top = two[str(tmp_path / "found.html")].decode("utf-8")
    assert re.findall(r'<a href="(found-[12]\.html)">', top) == ["found-1.html", "found-2.html"]
    assert "<title>4 failed, 1 to judge: findings on 2 pages</title>" in top and "<script" not in top


def test_rules_without_a_name() -> None:
    """A rule that the data doesn't know is told by its id."""
    text = "page https://shop.example/\nzz9999 node 6 failed never-heard-of\npassed 0 failed 1 cantTell 0 inapplicable 0\n"
    listing = listing_of(shop(), text)
    assert "**Rule zz9999** (zz9999)." in write_markdown(listing).decode("utf-8")
    assert json.loads(write_gitlab(listing))[0]["description"] == "Rule zz9999: a at #cart."
    assert TABLE.rule("zz9999").is_known is False


def test_view_with_formats(tmp_path: pathlib.Path) -> None:
    """The view writes the formats of a reply to outcomes, with who judged; without their options it writes HTML as ever."""
    (tmp_path / "shop.json").write_text(json.dumps(shop()), encoding="utf-8")
    (tmp_path / "shop.outcomes").write_bytes(reply(("c4a8a4", 1, "cantTell", "passed", "judge-title", "bob", "Shop"),
                                                   ("c487ae", 6, "failed", "failed", "no-name", "", "")))
    command = [ROOT / "collector" / "view", tmp_path / "shop.json", tmp_path / "shop.outcomes"]
    assert run(*command, "--csv", tmp_path / "found.csv", "--html", tmp_path / "found.html") == (0, "", "")
    rows = list(csv.reader((tmp_path / "found.csv").read_text(encoding="utf-8-sig").splitlines()))
    assert [(row[4], row[7]) for row in rows[1:]] == [("failed", ""), ("passed", "bob")]
    status, out, error = run(*command)
    assert (status, error) == (0, "") and out == (tmp_path / "found.html").read_text(encoding="utf-8")


def test_comparison_without_snapshots(tmp_path: pathlib.Path) -> None:
    """Two reports alone: nodes stand for places, and the HTML, which needs the snapshots, is refused."""
    (tmp_path / "shop.txt").write_text(SHOP, encoding="utf-8")
    command = [ROOT / "collector" / "compare", tmp_path / "shop.txt", tmp_path / "shop.txt"]
    assert run(*command, "--json", tmp_path / "found.json")[0] == 0
    found = json.loads((tmp_path / "found.json").read_text(encoding="utf-8"))
    jsonschema.validate(found, json.loads((ROOT / "silvervole" / "data" / "findings.schema.json").read_text(encoding="utf-8")))
    assert {one["change"] for one in found["findings"]} == {"stays"} and found["findings"][0]["path"] is None
    status, out, error = run(*command, "--html", tmp_path / "found.html")
    assert (status, out) == (18, "") and "--html needs the snapshots" in error


def test_states_are_told() -> None:
    """A page in a state is named with it, where people read it."""
    listing = listing_of({**shop(), "state": "menu open"}, SHOP)
    assert b'<testsuite name="https://shop.example/ (menu open)"' in write_junit(listing)
    assert "on `https://shop.example/ (menu open)`." in write_markdown(listing).decode("utf-8")


def test_the_document_has_each_format() -> None:
    """docs/use/pipeline.md has a row for each option."""
    rows = re.findall(r"^\| `--(\w+)` \|", (ROOT / "docs" / "use" / "pipeline.md").read_text(encoding="utf-8"), re.MULTILINE)
    assert rows == list(FORMATS)
