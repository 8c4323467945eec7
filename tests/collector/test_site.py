"""The example site: its kept snapshots, its defects, and the desk's reports on it."""
from __future__ import annotations

import json
import re
from typing import Any

import pytest

from silvervole.books import THIRTY
from silvervole.view.rules import read_rules

from ..support import DESK, PAGES, SITE, collect_here, collect_page, expect, form, note, run, same, well_formed


def test_examples(browser: Any) -> None:
    """Each page gives the kept bytes: by the command, and in a browser that has shown others."""
    for name, address in PAGES.items():
        kept = (SITE / f"{name}.json").read_bytes()
        code, out, err = collect_page(name)
        expect(f"{name}: collected", code == 0 and err == "", f"status {code}, {err!r}")
        expect(f"{name}: the kept snapshot", out == kept, first_difference(out, kept))
        again = collect_here(browser, SITE / f"{name}.html", "--url", address).text.encode("utf-8")
        expect(f"{name}: the kept snapshot, the second time", again == kept, first_difference(again, kept))
        well_formed(f"{name}: the kept snapshot is well formed", kept)
        same(f"{name}: its address", json.loads(kept)["url"], address)


def first_difference(got: bytes, kept: bytes) -> str:
    """Where two snapshots differ first."""
    for place, (a, b) in enumerate(zip(got.splitlines(), kept.splitlines()), 1):
        if a != b:
            return f"line {place} is {a[:300]!r}, kept is {b[:300]!r}"
    return f"{len(got)} bytes, kept are {len(kept)}"


def meant_defects() -> tuple[dict[str, list[str]], dict[str, str]]:
    """The site's page on its defects: report lines by page, and each page's last line."""
    lines: dict[str, list[str]] = {name: [] for name in PAGES}
    last: dict[str, str] = {}
    page = ""
    for line in (SITE / "README.md").read_text(encoding="utf-8").splitlines():
        heading = re.match(r"### `(\w+)\.html`", line)
        ending = re.search(r"`(passed \d+ failed \d+ cantTell \d+ inapplicable \d+)`", line)
        row = re.match(r"\| `([0-9a-z]{6})` \| .* \| `(\1 node \d+ (?:failed|cantTell) [a-z-]+)` \|$", line)
        if heading:
            page = heading.group(1)
        elif ending:
            last[page] = ending.group(1)
        elif row:
            lines[page].append(row.group(2))
    return lines, last


def test_defects() -> None:
    """Without the desk: each rule of the book of thirty has its defect, on an element that is there."""
    lines, last = meant_defects()
    same("pages with defects", sorted(last), sorted(PAGES))
    for name in PAGES:
        elements = {row["n"] for row in form.check((SITE / f"{name}.json").read_bytes()) if row["tag"] is not None}
        stray = [line for line in lines[name] if int(line.split()[2]) not in elements]
        same(f"{name}: defects on no element", stray, [])
    named = [line.split() for name in PAGES for line in lines[name]]
    same("the rules with a defect", sorted({words[0] for words in named}), sorted(read_rules().of_book(THIRTY)))
    # These two rules always need a person: they have no failed condition.
    same("the rules without a failure", sorted({words[0] for words in named} - {words[0] for words in named if words[3] == "failed"}),
         ["b49b2e", "c4a8a4"])


@pytest.mark.desk
def test_desk() -> None:
    """The desk's reports are those that the site's page on its defects tells."""
    lines, last = meant_defects()
    rules = {line.split()[0] for name in PAGES for line in lines[name]}
    unjudged = set()
    for name, address in PAGES.items():
        with open(SITE / f"{name}.json", "rb") as snapshot:
            code, out, err = run("-", "audit", program=DESK, stdin=snapshot)
        report = out.decode("utf-8").splitlines()
        expect(f"{name}: audited", code in (0, 1) and err == "", f"status {code}, {err!r}")
        same(f"{name}: the report's page", report[:1], [f"page {address}"])
        judged = {line.split()[0] for line in report[1:-1]}
        unjudged |= rules - judged
        for line in lines[name]:
            if line.split()[0] in judged:
                expect(f"{name}: the report has {line}", line in report)
        unmeant = [line for line in report[1:-1] if line.split()[-2:-1] == ["failed"] and line not in lines[name]]
        same(f"{name}: failures that aren't meant", unmeant, [])
        if not rules - judged:
            same(f"{name}: the report's last line", report[-1:], [last[name]])
    if unjudged:
        note(f"rules that this desk doesn't judge yet are left out: {' '.join(sorted(unjudged))}")


@pytest.mark.desk
def test_further_rules() -> None:
    """By the book of forty the reports end as the site's page on its defects tells, and but for one refresh nothing more fails."""
    rules, more = read_rules(), []
    lasts = dict(re.findall(r"^\| `(\w+)\.html` \| (passed \d+ .*) \|$", (SITE / "README.md").read_text(encoding="utf-8"), re.MULTILINE))
    same("the pages", sorted(lasts), sorted(PAGES))
    for name in PAGES:
        with open(SITE / f"{name}.json", "rb") as snapshot:
            _, out, err = run("forty", "-", "audit", program=DESK, stdin=snapshot)
        report = out.decode("utf-8").splitlines()
        same(f"{name}: the report's last line", (report[-1:], err), ([lasts[name]], ""))
        more += [line for line in report[1:-1] if " failed " in line and line.split()[0] not in rules.of_book(THIRTY)]
    same("what fails by the further rules", more, ["bisz58 node 6 failed delay"])
