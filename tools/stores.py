"""Runs of the program over files, and what SQLite finds in them, for tools/test-stores, tools/crash and tools/soak."""
import contextlib
import os
import shutil
import sqlite3
import subprocess
import tempfile

FILES = ("desk.db", "desk.db-wal")
STORE_FAULT = (6, "", "store fault\n")
NOT_KEPT = (2, "", "usage fault\n")


def ran(program, folder, *words):
    """The status, standard output and standard error of a run in a folder."""
    end = subprocess.run([program, *words], cwd=folder, stdin=subprocess.DEVNULL, capture_output=True, timeout=600,
                         check=False)
    return end.returncode, end.stdout.decode(), end.stderr.decode()


def contents(path):
    """What a file holds, or the names in a folder."""
    if os.path.isdir(path):
        return sorted(os.listdir(path))
    with open(path, "rb") as file:
        return file.read()


def copy_store(folder, to):
    """Copies the store `desk.db` of a folder, which no program has, with its log into another folder."""
    for name in FILES:
        if os.path.exists(os.path.join(folder, name)):
            shutil.copy(os.path.join(folder, name), os.path.join(to, name))


def edition(folder):
    """The edition that the store of a folder has noted, looked up in a copy; None where it has no such table or no row."""
    with tempfile.TemporaryDirectory() as copy:
        copy_store(folder, copy)
        with contextlib.closing(sqlite3.connect(os.path.join(copy, "desk.db"))) as store:
            with contextlib.suppress(sqlite3.OperationalError):
                return store.execute("SELECT max(number) FROM edition").fetchone()[0]
    return None


def set_back(folder, number):
    """Makes the store of a folder, which no program has, one of an earlier edition: it has that number, no table of languages, and its
    outcomes are others than those of its pages, which all begin with one that their rules never gave."""
    with contextlib.closing(sqlite3.connect(os.path.join(folder, "desk.db"))) as store:
        store.execute("DROP TABLE IF EXISTS languages")
        store.execute("DELETE FROM edition")
        store.execute("INSERT INTO edition VALUES (?)", (number,))
        store.execute("UPDATE outcomes SET auto = 1, reason = 'no-name', evidence = '', last = 1, hand = '' WHERE seq = 1")
        store.commit()


def integrity(folder):
    """What Debian's `sqlite3` says of a copy of the store of a folder: `ok`, or what is wrong with it. None where it isn't
    installed."""
    if shutil.which("sqlite3") is None:
        return None
    with tempfile.TemporaryDirectory() as copy:
        copy_store(folder, copy)
        said = subprocess.run(["sqlite3", os.path.join(copy, "desk.db"), "PRAGMA integrity_check"], capture_output=True,
                              text=True, stdin=subprocess.DEVNULL, check=False)
        return (said.stdout + said.stderr).strip()
