"""What a team accepts fails no pipeline while it lasts, and stands apart in every format."""
from __future__ import annotations

import csv
import datetime
import io
import json
import pathlib
import re
import xml.etree.ElementTree as ET

import pytest

from silvervole.accepted.matching import with_accepted
from silvervole.accepted.reading import read_accepted
from silvervole.collect.ends import End, Stop
from silvervole.formats.findings_json import write_json
from silvervole.formats.github import write_github
from silvervole.formats.gitlab import write_gitlab
from silvervole.formats.html_files import html_files
from silvervole.formats.junit import write_junit
from silvervole.formats.listing import Listing
from silvervole.formats.markdown import write_markdown
from silvervole.formats.sarif import write_sarif
from silvervole.formats.table import write_csv

from .samples import ROOT, SHOP, TABLE, listing_of, run, shop

ENTRY = '[[accepted]]\nrule = "{rule}"\nplace = "{place}"\nreason = "The vendor mends it"\nwho = "ann"\nuntil = {until}\n'
CART = ENTRY.format(rule="c487ae", place="https://shop.example/ #cart", until="2026-06-30")
GONE = ENTRY.format(rule="23a2a8", place="* #nowhere", until="2026-06-30")
LAST_DAY, NEXT_DAY = datetime.date(2026, 6, 30), datetime.date(2026, 7, 1)


def accepted(folder: pathlib.Path, text: str, today: datetime.date = LAST_DAY) -> Listing:
    """The shop's findings, with what the text accepts on a day."""
    path = folder / "accepted.toml"
    path.write_text(text, encoding="utf-8")
    return with_accepted(listing_of(shop(), SHOP, file="shop.html"), read_accepted(str(path), TABLE, today))


def failing(listing: Listing) -> set[str]:
    """The rules that fail."""
    return {entry.rule.id for entry in listing if entry.fails}


def test_it_lasts_through_its_last_day(tmp_path: pathlib.Path) -> None:
    """On the last day it counts, on the next it doesn't; the outcome is failed all the same."""
    assert failing(accepted(tmp_path, CART)) == {"23a2a8", "cf77f2"}
    assert failing(accepted(tmp_path, CART, NEXT_DAY)) == {"c487ae", "23a2a8", "cf77f2"}
    entry = accepted(tmp_path, CART).accepted[0]
    assert (entry.rule.id, entry.outcome) == ("c487ae", "failed")


@pytest.mark.parametrize("place", ["https://shop.example/ #cart", "* #cart", "FINGERPRINT"])
def test_places(tmp_path: pathlib.Path, place: str) -> None:
    """A page and a path, a path on each page, or a fingerprint."""
    mark = next(entry.fingerprint for entry in listing_of(shop(), SHOP) if entry.rule.id == "c487ae")
    text = ENTRY.format(rule="c487ae", place=place.replace("FINGERPRINT", mark), until="2026-06-30")
    assert [entry.rule.id for entry in accepted(tmp_path, text).accepted] == ["c487ae"]


@pytest.mark.parametrize("place", ["https://other.example/ #cart", "* a", f"{'0' * 32}"])
def test_other_places(tmp_path: pathlib.Path, place: str) -> None:
    """What is accepted elsewhere isn't accepted here, and is named."""
    listing = accepted(tmp_path, ENTRY.format(rule="c487ae", place=place, until="2026-06-30"))
    assert listing.accepted == [] and [one.place for one in listing.unmatched] == [place]


def test_another_rule_or_outcome(tmp_path: pathlib.Path) -> None:
    """Only what failed is accepted, and only by its rule."""
    text = ENTRY.format(rule="c4a8a4", place="* html", until="2026-06-30") + ENTRY.format(rule="2779a5", place="* #cart", until="2026-06-30")
    assert len(accepted(tmp_path, text).unmatched) == 2


def test_a_composite_is_accepted_as_a_whole(tmp_path: pathlib.Path) -> None:
    """Its inputs fail nothing then either."""
    text = ENTRY.format(rule="cf77f2", place="https://shop.example/ html", until="2026-06-30")
    assert failing(accepted(tmp_path, text)) == {"c487ae", "23a2a8"}


def test_in_data_formats(tmp_path: pathlib.Path) -> None:
    """JSON, JUnit, SARIF and Code Quality have it apart, and what matches nothing."""
    listing = accepted(tmp_path, CART + GONE)
    found = json.loads(write_json(listing))
    assert [one["node"] for one in found["accepted"]] == [6] and 6 not in [one["node"] for one in found["findings"]]
    assert found["accepted"][0]["acceptance"] == {"rule": "c487ae", "place": "https://shop.example/ #cart", "reason": "The vendor mends it",
                                                  "who": "ann", "until": "2026-06-30", "lasts": True}
    assert [one["place"] for one in found["unmatched"]] == ["* #nowhere"]
    suites = ET.fromstring(write_junit(listing)).findall("testsuite")
    assert [(suite.get("name"), suite.get("failures"), suite.get("skipped")) for suite in suites] == [
        ("https://shop.example/", "2", "1"), ("accepted findings", "0", "2")]
    run_of = json.loads(write_sarif(listing))["runs"][0]
    assert [(result["ruleId"], len(result["suppressions"])) for result in run_of["results"]] == [
        ("23a2a8", 0), ("cf77f2", 0), ("c4a8a4", 0), ("c487ae", 1)]
    assert [note["level"] for note in run_of["invocations"][0]["toolExecutionNotifications"]] == ["warning"]
    assert [issue["severity"] for issue in json.loads(write_gitlab(listing)) if issue["check_name"] == "c487ae"] == ["info"]


def test_in_formats_for_people(tmp_path: pathlib.Path) -> None:
    """Annotations, Markdown, CSV and HTML have it apart, and what matches nothing."""
    listing = accepted(tmp_path, CART + GONE)
    said, nothing = "Accepted by ann until 2026-06-30: The vendor mends it", "Nothing failed like what ann accepts until 2026-06-30: 23a2a8 at * #nowhere"
    lines = write_github(listing).decode("utf-8").splitlines()
    assert [line.split(" ")[0] for line in lines] == ["::error", "::error", "::notice", "::notice", "::notice"]
    assert said in lines[-2] and nothing in lines[-1]
    text = write_markdown(listing).decode("utf-8")
    assert text.startswith("## Accessibility: 2 failed, 1 to judge, 2 passed, 1 accepted\n")
    assert text.index("### Failed (2)") < text.index("### Accepted (1)") < text.index(said) < text.index(nothing)
    rows = list(csv.reader(io.StringIO(write_csv(listing).decode("utf-8-sig"))))
    assert [row[9] for row in rows if row[9]] == ["accepted", said, nothing]
    page = dict(html_files(listing, "found.html"))["found.html"].decode("utf-8")
    failed, apart = (re.search(rf'<section class="outcome {name}".*?</section>', page, re.DOTALL) for name in ("failed", "accepted"))
    assert failed is not None and apart is not None
    assert "#cart" not in failed[0] and "#cart" in apart[0] and said in apart[0] and nothing in apart[0]
    assert "<title>2 failed, 1 to judge" in page


def test_once_it_is_over(tmp_path: pathlib.Path) -> None:
    """It stands among what fails, with a word on who accepted it until when."""
    listing = accepted(tmp_path, CART, NEXT_DAY)
    assert listing.accepted == [] and listing.unmatched == ()
    assert "Was accepted by ann until 2026-06-30" in write_markdown(listing).decode("utf-8")
    assert json.loads(write_json(listing))["findings"][0]["acceptance"]["lasts"] is False


@pytest.mark.parametrize("says, text", [
    ("isn't TOML", "[[accepted"),
    ("something else than tables [[accepted]]", 'accept = "all"'),
    ("something else than tables [[accepted]]", 'accepted = ["all"]'),
    ("its entry 1 has no rule", '[[accepted]]\nplace = "* a"\n'),
    ("its entry 1 has no who", CART.replace('who = "ann"', 'who = " "')),
    ("its entry 2 has no reason", CART + CART.replace("reason", "#")),
    ("its entry 1 has untill, which is none of place, reason, rule, until, who", CART.replace("until", "untill")),
    ("its entry 1 has no until, which is a day without quotes", CART.replace("2026-06-30", '"2026-06-30"')),
    ("its entry 1 has no until, which is a day without quotes", CART.replace("2026-06-30", "2026-06-30T10:00:00")),
    ("its entry 1 is of c487af, which is no rule of the desk", CART.replace("c487ae", "c487af")),
    ("its entry 1 has a place that is neither", CART.replace("https://shop.example/ #cart", "https://shop.example/"))])
def test_what_is_no_such_file(tmp_path: pathlib.Path, says: str, text: str) -> None:
    """The line says what is wrong, and in which entry."""
    with pytest.raises(Stop) as stop:
        accepted(tmp_path, text)
    assert stop.value.end is End.INPUT and says in stop.value.line


def test_compare(tmp_path: pathlib.Path) -> None:
    """The command: what is new and accepted ends it with 0, and what matches nothing is a line on standard error."""
    for name, text in (("old.json", json.dumps(shop(cart="x"))), ("new.json", json.dumps(shop())), ("new.txt", SHOP),
                       ("old.txt", "page https://shop.example/\nc487ae node 6 passed ok\n23a2a8 node 9 failed no-name\n"
                                   "cf77f2 node 1 failed merged\npassed 1 failed 2 cantTell 0 inapplicable 0\n"),
                       ("accepted.toml", (CART + GONE).replace("2026", "2999")), ("over.toml", CART.replace("2026", "2001"))):
        (tmp_path / name).write_text(text, encoding="utf-8")
    command = [ROOT / "collector" / "compare", *(tmp_path / name for name in ("old.txt", "new.txt")),
               "--old-snapshot", tmp_path / "old.json", "--new-snapshot", tmp_path / "new.json"]
    status, out, error = run(*command)
    assert (status, error, out.splitlines()[-1]) == (1, "", "new failed 1, new to judge 1, mended 0, stay 2")
    status, out, error = run(*command, "--accepted", tmp_path / "accepted.toml")
    assert (status, out.splitlines()[-1]) == (0, "new failed 0, new to judge 1, mended 0, stay 2, accepted 1")
    assert out.splitlines()[-2] == ("accepted failed: c487ae Link has non-empty accessible name: no-name: a at #cart (node 6): "
                                    "Accepted by ann until 2999-06-30: The vendor mends it")
    assert error == f"compare: {tmp_path}/accepted.toml: Nothing failed like what ann accepts until 2999-06-30: 23a2a8 at * #nowhere\n"
    assert run(*command, "--accepted", tmp_path / "over.toml")[0] == 1
    status, out, error = run(*command, "--accepted", tmp_path / "none.toml")
    assert (status, out) == (19, "") and error.count("\n") == 1


def test_the_example_of_the_document(tmp_path: pathlib.Path) -> None:
    """What docs/use/pipeline.md shows is such a file."""
    text = re.findall(r"^```toml\n(.*?)^```$", (ROOT / "docs" / "use" / "pipeline.md").read_text(encoding="utf-8"), re.MULTILINE | re.DOTALL)
    assert [one.place for one in accepted(tmp_path, text[0]).unmatched] == ["https://www.example.org/ html > body > footer > a"]
