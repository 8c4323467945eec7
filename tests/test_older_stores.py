"""Stores that earlier programs made: today's program audits them anew, and tells then what it tells of the same pages put anew."""
from __future__ import annotations

import contextlib
import os
import pathlib
import shutil
import sqlite3

import pytest

from older import COMMITS, FOLDER, FORMS, SITES, ask, fill, told_by
from refreshing import rows
from serving import PROGRAM, Serving
from stores import FILES, contents, copy_store, edition, integrity, ran

from .support import expect, same

pytestmark = pytest.mark.desk

NOW = 3_003
TABLES = ["edition", "judgements", "languages", "members", "outcomes", "pages", "sites"]


def copied(number: int, folder: str) -> str:
    """Copies the store of an edition into a folder."""
    for name in FILES:
        kept = pathlib.Path(FOLDER, f"edition-{number}", name)
        if kept.is_file():
            shutil.copy(kept, folder)
    if not os.path.exists(f"{folder}/desk.db"):
        pytest.fail(f"no store of edition {number} is kept: tools/older-stores makes it", pytrace=False)
    return f"{folder}/desk.db"


def looked_into(folder: str) -> None:
    """What SQLite finds in a store that was audited anew."""
    if (said := integrity(folder)) is not None:
        same("what SQLite says", said, "ok")
    with contextlib.closing(sqlite3.connect(f"{folder}/desk.db")) as store:
        names = sorted(name for name, in store.execute("SELECT name FROM sqlite_schema WHERE type = 'table'"))
        same("its tables", names, TABLES)
        same("its languages", store.execute("SELECT count(*) FROM languages").fetchone(), (0,))


@pytest.mark.parametrize("number", COMMITS)
def test_store(number: int, folder: str) -> None:
    """A store of an earlier edition: its reports, its rows, and what is told once its site has languages."""
    store = copied(number, folder)
    same("its edition", edition(folder), number)
    before = rows(folder)
    reports = {f"/sites/{site}/{form}": ran(PROGRAM, folder, "desk.db", form, site) for site in SITES for form in FORMS}
    same("its edition then", edition(folder), NOW)
    same("its sites, members, pages and judgements then", rows(folder) == before, True)
    with Serving(workers=4, store=store) as older, Serving(workers=4) as anew:
        same("what is put anew is taken", fill(anew), [])
        shown = told_by(anew)
        for line, (status, out, err) in reports.items():
            same(f"{line} by a run", (status, out.encode(), err), (0, shown[line][1], ""))
        same("all that it tells", differing(told_by(older), shown), [])
        for desk in (older, anew):
            reply = ask(desk, "ann", "PUT /sites/acme/languages", None, {"languages": ["gsw"]})
            same("its languages are set", reply, (200, b'{"languages":1,"pages":%d}' % len(SITES["acme"])))
        later = told_by(anew)
        expect("that changes what is told", differing(shown, later) != [])
        same("all that it tells with languages", differing(told_by(older), later), [])
    same("the next run tells the same", ran(PROGRAM, folder, "desk.db", "csv", "acme")[1].encode(), later["/sites/acme/csv"][1])


@pytest.mark.parametrize("number", COMMITS)
def test_file(number: int, folder: str) -> None:
    """The file is one that SQLite reads after it was audited anew."""
    copied(number, folder)
    same("it is reported", ran(PROGRAM, folder, "desk.db", "report", "acme")[0], 0)
    looked_into(folder)


@pytest.mark.parametrize("number", COMMITS)
def test_steps(number: int, folder: str) -> None:
    """The steps of docs/use/store.md for a new program: a copy is tried, the store is started, and the other copy is the way back."""
    copied(number, folder)
    trial, back = f"{folder}/trial", f"{folder}/back"
    for to in (trial, back):
        os.mkdir(to)
        copy_store(folder, to)
    before = {name: contents(f"{folder}/{name}") for name in FILES if os.path.exists(f"{folder}/{name}")}
    tried = ran(PROGRAM, trial, "desk.db", "csv", "acme")
    same("the copy is audited anew", (tried[0], edition(trial)), (0, NOW))
    same("the store is as it was", {name: contents(f"{folder}/{name}") for name in before}, before)
    same("the start tells what was tried", ran(PROGRAM, folder, "desk.db", "csv", "acme"), tried)
    for name in FILES:
        if os.path.exists(f"{folder}/{name}"):
            os.remove(f"{folder}/{name}")
    copy_store(back, folder)
    same("the other copy is of the edition before", edition(folder), number)
    same("and is audited anew too", ran(PROGRAM, folder, "desk.db", "csv", "acme"), tried)


def differing(told: dict[str, tuple[int | None, bytes]], wanted: dict[str, tuple[int | None, bytes]]) -> list[str]:
    """The addresses of which something else is told."""
    return [line for line in wanted if told[line] != wanted[line]]
