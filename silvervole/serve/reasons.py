"""Why the program can't use a store or can't listen, as far as that can be found out afterwards.

Nothing is changed for it: a file is looked at, and what is written for a test is gone at once.
"""
from __future__ import annotations

import errno
import fcntl
import os
import sqlite3
import stat
import struct
import tempfile
import urllib.parse

from . import system

MAGIC = b"SQLite format 3\0"
# The tables of a store; one of an earlier edition lacks the last.
TABLES = {"sites", "members", "pages", "judgements", "outcomes", "edition", "languages"}
LATER = {"languages"}
# As much as the program writes for a new store and its log.
ENOUGH = 512 * 1024
FLOCK = "hhqqi4x"


def why_not_listening(port: int) -> str:
    """Why a port can't be listened at."""
    if (taken := system.listening(port)) is not None:
        return f"the port {port} is taken by {system.holder_of_socket(taken)}"
    if 0 < port < system.least_free_port() and os.geteuid() != 0:
        return f"you have no leave to listen at the port {port}; everybody may from {system.least_free_port()} on"
    return f"the system doesn't let it listen at the port {port}, or take a connection there"


def why_not_stored(path: str) -> str:
    """Why a file can't be used as a store."""
    there = os.path.lexists(path)
    return (why_no_place(path) or (why_no_file(path) if there else "") or why_not_written(path) or (why_no_store(path) if there else "")
            or "the reason can't be found out")


def why_no_place(path: str) -> str:
    """What is wrong with the name or the folder of a store; empty where nothing is."""
    folder = os.path.dirname(path) or "."
    if path.startswith("file:") or path == ":memory:":
        return "the desk takes no store of such a name"
    if os.path.isdir(path):
        return "it is a folder"
    if not os.path.isdir(folder):
        return f"there is no folder {folder}"
    return ""


def why_no_file(path: str) -> str:
    """What is wrong with a file that is there; empty where nothing is found."""
    try:
        found = os.stat(path)
    except OSError as error:
        return f"it can't be looked at: {error.strerror}"
    if not stat.S_ISREG(found.st_mode):
        return "it is no ordinary file"
    if not os.access(path, os.R_OK | os.W_OK):
        return f"you have no leave to read and write it; it belongs to {system.user_name(found.st_uid)}"
    if found.st_nlink > 1:
        return "it has a second name (a hard link), and the log beside it would belong to one alone"
    if os.path.exists(f"{path}-journal"):
        return f"a change of it by SQLite broke off: open it once with sqlite3, which takes {path}-journal back"
    if is_locked(path):
        holder = system.holder_of_file(path)
        return f"it is in use by {holder or 'another program'}; one at a time has it"
    return ""


def is_locked(path: str) -> bool:
    """Whether another program holds a lock on a file; none is taken for the question."""
    with open(path, "rb") as file:
        asked = struct.pack(FLOCK, fcntl.F_WRLCK, os.SEEK_SET, 0, 0, 0)
        try:
            told = fcntl.fcntl(file, fcntl.F_OFD_GETLK, asked)
        except OSError:
            return False
        return bool(struct.unpack(FLOCK, told)[0] != fcntl.F_UNLCK)


def why_no_store(path: str) -> str:
    """Why a file that holds something isn't a store; empty where it looks like one."""
    with open(path, "rb") as file:
        front = file.read(len(MAGIC))
    if not front:
        return ""
    if front != MAGIC:
        return "it is no store: it isn't a database of SQLite"
    try:
        with sqlite3.connect(f"file:{urllib.parse.quote(os.path.abspath(path))}?mode=ro", uri=True) as database:
            names = {name for (name,) in database.execute("select name from sqlite_master where type = 'table'")}
            sound = database.execute("pragma quick_check(1)").fetchone()[0] == "ok"
    except sqlite3.Error as error:
        return f"it is damaged, or no store: {error}"
    if names and names not in (TABLES, TABLES - LATER):
        return f"it is a database of something else: its tables are {', '.join(sorted(names)[:6])}"
    return "" if sound else "it is damaged"


def why_not_written(path: str) -> str:
    """Why nothing can be written beside a store; empty where as much as a new one needs can be."""
    folder = os.path.dirname(path) or "."
    try:
        with tempfile.TemporaryFile(dir=folder) as file:
            file.write(bytes(ENOUGH))
            file.flush()
            os.fsync(file.fileno())
    except OSError as error:
        if error.errno in (errno.ENOSPC, errno.EDQUOT):
            return f"the disk is full, on which the folder {folder} is"
        if error.errno == errno.EROFS:
            return f"the folder {folder} is on a file system that can't be written"
        return f"you have no leave to write into the folder {folder}: {error.strerror}"
    return ""
