"""The view and the CSV of what people judged, where they are given the desk's reply to `verdicts`."""
from __future__ import annotations

import csv
import hashlib
import io
import json
import pathlib
from typing import Any

from silvervole.collect.ends import End

from ..support import VIEW, expect, refused, run, same
from .test_outcomes import REPLY, SNAPSHOT

NOTE = "It says what stands below it, =1+1; <b>twice</b>."


def verdict(rule: str, node: int, said: str, by: str, evidence: str, counts: bool, note: str = "") -> dict[str, Any]:
    """A judgement as the desk tells it."""
    return {"by": by, "counts": counts, "digest": hashlib.sha256(evidence.encode()).hexdigest(), "node": node, "note": note, "rule": rule,
            "verdict": said}


# Of the page of test_outcomes: one finding that was judged twice, one that was left open, and a judgement of what is no more.
VERDICTS = [
    verdict("b49b2e", 5, "passed", "ann", "heading\nHours", False, "At first."),
    verdict("b49b2e", 5, "failed", "bob", "heading\nOpening hours", True, NOTE),
    verdict("b49b2e", 7, "cantTell", "eve", "heading\nFind us", True),
    verdict("047fe0", 1, "passed", "ann", "Opening hours\nFind us\nNews", True, "One is enough."),
    verdict("b49b2e", 99, "passed", "ann", "heading\nGone", False, "Of what is gone."),
]


def files(folder: pathlib.Path, verdicts: object = None, rev: int = 7) -> tuple[str, str, str]:
    """A snapshot, the reply to outcomes, and the reply to verdicts."""
    told = {"rev": rev, "verdicts": VERDICTS if verdicts is None else verdicts}
    texts = {"page.json": SNAPSHOT, "outcomes.json": REPLY, "verdicts.json": json.dumps(told)}
    for name, text in texts.items():
        (folder / name).write_text(text, encoding="utf-8")
    return str(folder / "page.json"), str(folder / "outcomes.json"), str(folder / "verdicts.json")


def test_view(tmp_path: pathlib.Path) -> None:
    """The view has each judgement at its finding, in its order, and none of another's; the page's texts stay texts."""
    page, outcomes, verdicts = files(tmp_path)
    code, out, _ = run(page, outcomes, "--verdicts", verdicts, program=VIEW)
    same("the status", code, End.WRITTEN)
    text = out.decode("utf-8")
    first, second = text.find("Passed by ann, which counts no more: At first."), text.find("Failed by bob: It says what stands below it, =1+1; &lt;b&gt;twice")
    expect("both judgements of a finding stand there, in their order", 0 < first < second, text[:200])
    expect("one without a note", "Left open by eve." in text, text[:200])
    expect("one beneath the composite", "Passed by ann: One is enough." in text, text[:200])
    expect("none of what is no more", "Of what is gone." not in text, text[:200])
    plain = run(page, outcomes, program=VIEW)[1].decode("utf-8")
    expect("without the file no note", "At first." not in plain, plain[:200])


def test_csv(tmp_path: pathlib.Path) -> None:
    """The CSV has a column more, which no spreadsheet computes; without the file it is as it was."""
    page, outcomes, verdicts = files(tmp_path)
    out = tmp_path / "findings.csv"
    same("the status", run(page, outcomes, "--verdicts", verdicts, "--csv", out, program=VIEW)[0], End.WRITTEN)
    rows = list(csv.DictReader(io.StringIO(out.read_text(encoding="utf-8-sig"))))
    said = {(row["rule"].split()[0], row["start tag"]): row["what was said"] for row in rows}
    expect("what was said of the first heading", f"Passed by ann, which counts no more: At first.; Failed by bob: {NOTE}" in said.values(), str(said))
    expect("nothing of a finding that nobody judged", "" in said.values(), str(said))
    same("without the file", run(page, outcomes, "--csv", out, program=VIEW)[0], End.WRITTEN)
    expect("there is no such column", "what was said" not in out.read_text(encoding="utf-8-sig"), "")


def test_refused(tmp_path: pathlib.Path) -> None:
    """What is no reply to verdicts, or of another revision, is refused with the status of an input."""
    cases: list[tuple[str, object, int]] = [
        ("of another revision", None, 8), ("a list of texts", ["x"], 7), ("a judgement without a note",
         [{key: value for key, value in VERDICTS[0].items() if key != "note"}], 7),
        ("counts as a number", [{**VERDICTS[0], "counts": 1}], 7), ("a name that is none", [{**VERDICTS[0], "by": "Bob"}], 7)]
    for what, given, rev in cases:
        page, outcomes, verdicts = files(tmp_path, given, rev)
        refused(what, End.INPUT, "is no reply of the desk to verdicts", page, outcomes, "--verdicts", verdicts, program=VIEW)
