"""`silvervole serve` with the built desk: what it says where a store or a port can't be had, and what an interrupt keeps."""
from __future__ import annotations

import contextlib
import http.client
import os
import pathlib
import re
import shutil
import signal
import sqlite3
import subprocess
import tempfile
from typing import Iterator

import pytest

from silvervole.collect.ends import End

from ..support import DESK, expect, note, run, same
from .test_checking import COMMAND

LISTENS = re.compile(r"silvervole serve: listening at http://127\.0\.0\.1:([0-9]+), sites are kept (.*); an interrupt \(Ctrl\+C\) ends it\n")
NOBODY = ("setpriv", "--reuid", "nobody", "--regid", "nogroup", "--clear-groups")


class Served:
    """The command while it serves, at a port of the system's choice, until it is interrupted."""

    def __init__(self, store: str, *words: str) -> None:
        self.command = subprocess.Popen([COMMAND, "serve", store, "--port", "0", *words], stdin=subprocess.DEVNULL, stderr=subprocess.PIPE, text=True)
        assert self.command.stderr is not None
        self.line = self.command.stderr.readline()
        found = LISTENS.fullmatch(self.line)
        self.port, self.kept = (int(found[1]), found[2]) if found else (0, "")

    def ask(self, way: str, path: str) -> int:
        """The status of the reply to a request of ann's."""
        connection = http.client.HTTPConnection("127.0.0.1", self.port, timeout=60)
        connection.request(way, path, headers={"x-caller": "ann"})
        status = connection.getresponse().status
        connection.close()
        return status

    def interrupt(self) -> tuple[int, str]:
        """The status, and the last line on standard error."""
        self.command.send_signal(signal.SIGINT)
        _, error = self.command.communicate(timeout=60)
        return self.command.returncode, error.splitlines()[-1]


def told(what: str, end: End, says: str, *words: str, before: tuple[str, ...] = ()) -> None:
    """Expects serve to end with the program's own status, and a line that says why."""
    done = subprocess.run([*before, str(COMMAND), "serve", *words, "--port", "0"], stdin=subprocess.DEVNULL, capture_output=True, text=True, check=False)
    expect(what, done.returncode == end and done.stdout == "" and done.stderr.count("\n") == 1 and says in done.stderr, f"{done.returncode} {done.stderr!r}")


def changed(path: str, statement: str) -> None:
    """Changes a database by SQLite."""
    with contextlib.closing(sqlite3.connect(path)) as database, database:
        database.execute(statement)


@pytest.mark.desk
def test_serve(folder: str) -> None:
    """It listens, keeps what was answered through an interrupt, and names who has a port or a store."""
    store = f"{folder}/desk.db"
    first = Served(store)
    same("where it listens, and over which store", first.kept, f"in {store}")
    same("a site is made", first.ask("PUT", "/sites/acme"), 201)
    told("a store that is in use", End.FAULT_STORE, f"{store}: it is in use by the process ", store)
    code, _, err = run("serve", f"{folder}/other.db", "--port", first.port, program=COMMAND)
    taken = re.search(rf"the port {first.port} is taken by the process [0-9]+ \(.*act_desk", err)
    expect("a port that is taken", code == End.FAULT_LISTENING and taken is not None, err)
    same("an interrupt", first.interrupt(), (End.INTERRUPTED, f"silvervole serve: interrupted; what was answered is kept in {store}"))
    second = Served(store)
    same("the site is there still", second.ask("GET", "/sites/acme/report"), 200)
    second.interrupt()
    changed(store, "update edition set number = 7")
    told("a store of another edition", End.FAULT_EDITION, "is of edition 7, which another edition of the desk made", store)
    memory = Served("-")
    same("over memory", (memory.kept, memory.interrupt()), ("in memory, so that all is lost when it ends", (End.INTERRUPTED, "silvervole serve: interrupted")))


@pytest.mark.desk
def test_serve_by_a_book(folder: str) -> None:
    """A store takes either book, and its edition says which it was; one whose name is that of the book is a file all the same."""
    store = f"{folder}/desk.db"
    for place, (book, number) in enumerate((("thirty", 3_003), ("forty", 4_003), ("thirty", 3_003))):
        served = Served(store, "--book", book)
        same(f"a site by the book of {book}", served.ask("PUT", "/sites/acme"), 409 if place else 201)
        served.interrupt()
        with contextlib.closing(sqlite3.connect(store)) as database:
            same(f"the edition by the book of {book}", database.execute("select max(number) from edition").fetchone()[0], number)
    with contextlib.chdir(folder):
        served = Served("forty")
        same("a store named forty", (served.kept, served.ask("PUT", "/sites/acme")), (f"in {os.path.realpath(folder)}/forty", 201))
        served.interrupt()
    expect("it is a file", os.path.isfile(f"{folder}/forty"))


@pytest.mark.desk
def test_serve_stores(folder: str) -> None:
    """Files that are no store, folders that can't be written, and a full disk."""
    pathlib.Path(folder, "text").write_text("no database", encoding="utf-8")
    changed(f"{folder}/books.db", "create table books (x)")
    told("a folder", End.FAULT_STORE, "it is a folder", folder)
    told("a text", End.FAULT_STORE, "it is no store: it isn't a database of SQLite", f"{folder}/text")
    told("another database", End.FAULT_STORE, "it is a database of something else: its tables are books", f"{folder}/books.db")
    told("no folder", End.FAULT_STORE, f"there is no folder {folder}/none", f"{folder}/none/desk.db")
    told("the words", End.USAGE, "usage: silvervole serve", f"{folder}/desk.db", "--workers", "17")
    as_nobody(folder)
    with small_disk() as disk:
        if disk is not None:
            pathlib.Path(disk, "filler").write_bytes(bytes(960 * 1024))
            told("a full disk", End.FAULT_STORE, f"the disk is full, on which the folder {disk} is", f"{disk}/desk.db")


def as_nobody(folder: str) -> None:
    """What somebody without leave is told; left out where this user can't be another, or the other can't start the command."""
    os.chmod(folder, 0o755)
    program = shutil.copy(DESK, f"{folder}/act_desk")
    before = (*NOBODY, "env", f"SILVERVOLE_PROGRAM={program}")
    if subprocess.run([*before, str(COMMAND), "--version"], capture_output=True, check=False).returncode:
        note("nobody can't start bin/silvervole here: what somebody without leave is told is left out")
        return
    told("a folder that can't be written", End.FAULT_STORE,
         f"you have no leave to write into the folder {folder}: Permission denied", f"{folder}/new.db", before=before)
    pathlib.Path(folder, "own.db").touch(0o600)
    told("a file that can't be read", End.FAULT_STORE, "you have no leave to read and write it; it belongs to root", f"{folder}/own.db", before=before)


@contextlib.contextmanager
def small_disk() -> Iterator[str | None]:
    """A disk of 1 MB as a folder; None where this machine or user can't have one."""
    with tempfile.TemporaryDirectory() as folder:
        if subprocess.run(["mount", "-t", "tmpfs", "-o", "size=1m", "tmpfs", folder], capture_output=True, check=False).returncode:
            note("no small disk can be mounted here: what is told of a full disk is left out")
            yield None
            return
        try:
            yield folder
        finally:
            subprocess.run(["umount", folder], check=True)
