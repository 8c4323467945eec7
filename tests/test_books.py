"""The books of rules: how the program is told which, what the words of the command make of it, and what is said of the ten further rules."""
from __future__ import annotations

import json
import pathlib
from typing import Any

import pytest

from silvervole.books import BOOKS, FORTY, THIRTY
from silvervole.cases.command import others
from silvervole.cases.command import parser as cases_parser
from silvervole.cases.command import read_words
from silvervole.collect.ends import End
from silvervole.compare.books import books_told
from silvervole.compare.reading import Audit
from silvervole.formats.findings_json import write_json
from silvervole.program import words_of
from silvervole.send import rehearsal
from silvervole.serve.command import Serving
from silvervole.view.report import Report, read_report

from .samples import ROOT, SHOP, TABLE, listing_of, shop
from .standin import desk, plain_environment, shop_file, silvervole

FURTHER = TABLE.of_book(FORTY)[BOOKS[THIRTY]:]
LIST = ROOT / "examples" / "cases" / "testcases.json"
# The shop as the book of forty finds it: beside the rest that its picture's name is to judge.
MORE = SHOP.replace("047fe0 node 1", "qt1vmo node 9 cantTell judge-image\n047fe0 node 1").replace("cantTell 1 ", "cantTell 2 ")


def test_the_books() -> None:
    """Each begins with the one before it; a report's book is the least that has its rules, and what nobody knows counts for none."""
    assert [len(TABLE.of_book(book)) for book in BOOKS] == list(BOOKS.values()) == [30, 40]
    assert TABLE.of_book(FORTY) == (*TABLE.of_book(THIRTY), *FURTHER) == tuple(TABLE.rules)
    assert [TABLE.book_with(rules) for rules in ((), ("2779a5", "zzzzzz"), ("2779a5", "5b7ae0"), ("2ee8b8",))] == [THIRTY, THIRTY, FORTY, FORTY]


def test_words_of_the_program() -> None:
    """The book of forty has a word before the store; a store of that name is told as a path."""
    assert (words_of(THIRTY), words_of(FORTY)) == (["-"], ["forty", "-"])
    assert (words_of(THIRTY, "desk.db"), words_of(FORTY, "desk.db")) == (["desk.db"], ["forty", "desk.db"])
    assert (words_of(THIRTY, "forty"), words_of(FORTY, "forty")) == (["./forty"], ["forty", "./forty"])
    assert Serving("desk.db", 8080, 4, 9, FORTY).words == ["forty", "desk.db", "serve", "--port", "8080", "--workers", "4", "--connections", "9"]


@pytest.mark.parametrize("words, program", [
    (("audit",), "- audit"), (("audit", "--book", "thirty"), "- audit"), (("audit", "--book", "forty"), "forty - audit"),
    (("check",), "- audit"), (("check", "--book", "forty"), "forty - audit"),
    (("serve",), "desk.db serve --port 8080 --workers 4 --connections 1000000"),
    (("serve", "--book", "forty"), "forty desk.db serve --port 8080 --workers 4 --connections 1000000")])
def test_words_of_the_command(tmp_path: pathlib.Path, words: tuple[str, ...], program: str) -> None:
    """What the words of the command make of those of the program."""
    env = desk(tmp_path, status=0, does=f"echo $* >> {tmp_path}/words")
    silvervole(*words, *([shop_file(tmp_path)] if words[0] != "serve" else []), env=env, cwd=tmp_path)
    assert (tmp_path / "words").read_text(encoding="utf-8") == f"{program}\n"


def test_setting(tmp_path: pathlib.Path) -> None:
    """`check` takes the book of the settings."""
    env = desk(tmp_path, status=0, does=f"echo $* >> {tmp_path}/words")
    (tmp_path / "silvervole.toml").write_text('book = "forty"\n', encoding="utf-8")
    silvervole("check", shop_file(tmp_path), env=env, cwd=tmp_path)
    assert (tmp_path / "words").read_text(encoding="utf-8") == "forty - audit\n"


def test_refused(tmp_path: pathlib.Path) -> None:
    """A book that there isn't, one that the program hasn't, and one for a desk that has its own."""
    status, out, error = silvervole("audit", "--book", "fifty")
    assert (status, out) == (End.USAGE, "") and "invalid choice: 'fifty' (choose from 'thirty', 'forty')" in error and error.count("\n") == 1
    program = tmp_path / "act_audit"
    program.write_text("#!/bin/sh\nexit 0\n", encoding="utf-8")
    program.chmod(0o755)
    env = {**plain_environment(), "SILVERVOLE_PROGRAM": str(program)}
    for words in (("audit", shop_file(tmp_path)), ("check", shop_file(tmp_path)), ("cases", LIST)):
        status, out, error = silvervole(*words, "--book", "forty", env=env)
        assert status == End.PROGRAM and f"{program} has the book of thirty alone: that of forty is in act_desk\n" in error
    status, _, error = silvervole("send", "--desk", "http://127.0.0.1:9", "acme/home", shop_file(tmp_path), "--book", "forty")
    assert status == End.USAGE and "--book goes with --dry-run" in error


def test_cases() -> None:
    """Cases are tried of the rules that the book has, and the others are named."""
    thirty, forty = (read_words([str(LIST), "--book", book], cases_parser(), TABLE) for book in BOOKS)
    assert {case.rule for case in thirty.cases} == set(TABLE.of_book(THIRTY)) and {case.rule for case in thirty.others} == set(FURTHER)
    assert {case.rule for case in forty.cases} == set(TABLE.of_book(FORTY)) and not forty.others
    assert others(thirty.others, THIRTY) == [
        f"not tried: {len(thirty.others)} cases of rules that the book of thirty hasn't: {', '.join(FURTHER)}"]
    assert {case.rule for case in read_words([str(LIST), "--book", "forty", "--rule", "5b7ae0"], cases_parser(), TABLE).cases} == {"5b7ae0"}


def audits(report: str) -> dict[str, Audit]:
    """A folder's one audit, by the name of its page."""
    found = read_report(report.encode("utf-8"), "shop.txt")
    return {"shop": Audit("shop", found.findings, None, found)}


def test_compared() -> None:
    """Two audits by different books are told apart, and nothing is said of those by one."""
    assert books_told(audits(SHOP), audits(SHOP), TABLE) == books_told(audits(MORE), audits(MORE), TABLE) == books_told({}, audits(MORE), TABLE) == ""
    assert books_told(audits(SHOP), audits(MORE), TABLE) == "OLD is by the book of thirty and NEW by that of forty: all that its further rules find is new"
    assert books_told(audits(MORE), audits(SHOP), TABLE) == "OLD is by the book of forty and NEW by that of thirty: what further rules found counts as mended"


def test_compared_by_the_command(tmp_path: pathlib.Path) -> None:
    """It is a line on standard error; what the further rules find is new, with what it means."""
    (tmp_path / "old").write_text(SHOP, encoding="utf-8")
    (tmp_path / "new").write_text(MORE, encoding="utf-8")
    status, out, error = silvervole("compare", tmp_path / "old", tmp_path / "new")
    assert (status, error.count("\n")) == (0, 1) and error.startswith("silvervole compare: OLD is by the book of thirty")
    assert "new to judge: qt1vmo Image accessible name is descriptive: judge-image: node 9\nThe image has a name. " in out
    assert silvervole("compare", tmp_path / "new", tmp_path / "new")[2] == ""


@pytest.mark.parametrize("named, kept, book", [(None, None, THIRTY), (None, SHOP, THIRTY), (None, MORE, FORTY), (FORTY, None, FORTY), (THIRTY, MORE, THIRTY)])
def test_trial(monkeypatch: pytest.MonkeyPatch, named: str | None, kept: str | None, book: str) -> None:
    """A page is tried by the book that is named, else by that of what is kept; each desk is started once, and ended."""
    made: list[Any] = []

    class Trial:
        """Stands in for a desk in memory."""

        def __init__(self, book: str) -> None:
            self.book, self.ended = book, False
            made.append(self)

        def end(self) -> None:
            """Ends it."""
            self.ended = True

    monkeypatch.setattr(rehearsal, "Trial", Trial)
    monkeypatch.setattr(rehearsal, "find_program", lambda: "act_desk")
    report: Report | None = read_report(kept.encode("utf-8"), "shop.txt") if kept is not None else None
    with rehearsal.Rehearsal(TABLE, named) as tried:
        assert tried.trial(report) is tried.trial(report)
    assert [(one.book, one.ended) for one in made] == [(book, True)]


@pytest.mark.parametrize("rule", FURTHER)
def test_told(rule: str) -> None:
    """Each reason of a further rule is told with the rule's name and link, what it means, and what mends it."""
    for (reason, outcome), advice in TABLE.rule(rule).advice.items():
        counts = {"failed": "passed 0 failed 1 cantTell 0", "cantTell": "passed 0 failed 0 cantTell 1"}[outcome]
        report = f"page https://shop.example/\n{rule} node 9 {outcome} {reason}\n{counts} inapplicable 0\n"
        found, = json.loads(write_json(listing_of(shop(), report)))["findings"]
        assert (found["rule"]["name"], found["means"], found["mends"]) == (TABLE.rule(rule).name, advice.means, advice.mends)
        assert found["rule"]["name"] and found["means"] and found["mends"] and found["rule"]["link"].endswith(f"/act/rules/{rule}/")


@pytest.mark.desk
def test_the_program() -> None:
    """The built program audits by either book: the smallest page has a language, and a title to judge."""
    for book, sums in (("thirty", "passed 3 failed 0 cantTell 1 inapplicable 26"), ("forty", "passed 3 failed 0 cantTell 1 inapplicable 36")):
        status, out, error = silvervole("audit", "--book", book, ROOT / "examples" / "smallest.json")
        assert (status, out.splitlines()[-1], error) == (0, sums, "")
        assert [line.split()[0] for line in out.splitlines()[1:-1]] == list(TABLE.of_book(book))
