"""`silvervole serve`: what it says of the program's faults, by a stand-in for the program, and of stores and ports as they are."""
from __future__ import annotations

import errno
import os
import pathlib
import signal
import socket
import sqlite3
import subprocess
import time
from typing import Any

import pytest

from silvervole.serve import reasons, system

from .standin import COMMAND, desk, plain_environment, silvervole

# A short program that has a lock on a file until it is ended.
LOCKING = """import fcntl, os, struct, sys, time
file = open(sys.argv[1], "r+b")
fcntl.fcntl(file, fcntl.F_OFD_SETLK, struct.pack("hhqqi4x", fcntl.F_WRLCK, os.SEEK_SET, 0, 0, 0))
print("locked", flush=True)
time.sleep(600)
"""
# A program that listens and serves nothing, until it is ended.
LISTENING = """#!/usr/bin/python3
import socket, sys, time
door = socket.create_server(("127.0.0.1", int(sys.argv[sys.argv.index("--port") + 1])))
kept = [door.accept() for _ in range(1_000)]
"""


def free_port() -> int:
    """A port at which nothing listens."""
    with socket.socket() as one:
        one.bind(("127.0.0.1", 0))
        return int(one.getsockname()[1])


def made(path: pathlib.Path, *statements: str) -> pathlib.Path:
    """A database of SQLite."""
    with sqlite3.connect(path) as database:
        for statement in statements:
            database.execute(statement)
    return path


def tables() -> list[str]:
    """What makes tables of a store's names."""
    return [f"create table {name} (x)" for name in sorted(reasons.TABLES)]


def test_why_not_stored(tmp_path: pathlib.Path) -> None:
    """Each reason is found by looking at the file, and nothing is changed for it."""
    text, other, ours = tmp_path / "text", tmp_path / "other.db", tmp_path / "ours.db"
    text.write_text("no database at all", encoding="utf-8")
    made(other, "create table books (x)")
    made(ours, *tables())
    made(tmp_path / "earlier.db", *tables()[:-1], "drop table languages", "create table sites (x)")
    before = {path.name: path.read_bytes() for path in tmp_path.iterdir()}
    assert reasons.why_not_stored("file:x.db") == reasons.why_not_stored(":memory:") == "the desk takes no store of such a name"
    assert reasons.why_not_stored(str(tmp_path)) == "it is a folder"
    assert reasons.why_not_stored(f"{tmp_path}/none/x.db") == f"there is no folder {tmp_path}/none"
    assert reasons.why_not_stored(str(text)) == "it is no store: it isn't a database of SQLite"
    assert reasons.why_not_stored(str(other)) == "it is a database of something else: its tables are books"
    assert reasons.why_not_stored(str(ours)) == reasons.why_not_stored(f"{tmp_path}/earlier.db") == "the reason can't be found out"
    assert reasons.why_not_stored("/dev/null") == "it is no ordinary file"
    assert {path.name: path.read_bytes() for path in tmp_path.iterdir()} == before


def test_why_a_sound_file_is_refused(tmp_path: pathlib.Path) -> None:
    """Second names, journals and damage."""
    ours = made(tmp_path / "ours.db", *tables())
    os.link(ours, tmp_path / "second.db")
    assert reasons.why_not_stored(str(ours)).startswith("it has a second name (a hard link)")
    (tmp_path / "second.db").unlink()
    (tmp_path / "ours.db-journal").touch()
    assert reasons.why_not_stored(str(ours)).startswith("a change of it by SQLite broke off")
    (tmp_path / "ours.db-journal").unlink()
    ours.write_bytes(ours.read_bytes()[:100] + bytes(3_000))
    assert reasons.why_not_stored(str(ours)).startswith("it is damaged")


def test_in_use(tmp_path: pathlib.Path) -> None:
    """Who has a store is named."""
    ours = made(tmp_path / "ours.db", *tables())
    with subprocess.Popen(["/usr/bin/python3", "-c", LOCKING, str(ours)], stdout=subprocess.PIPE) as holder:
        assert holder.stdout is not None and holder.stdout.readline() == b"locked\n"
        told = reasons.why_not_stored(str(ours))
        holder.kill()
    assert told.startswith(f"it is in use by the process {holder.pid} (/usr/bin/python3 -c ") and told.endswith("); one at a time has it")


@pytest.mark.parametrize("number, says", [
    (errno.ENOSPC, "the disk is full, on which the folder {} is"), (errno.EDQUOT, "the disk is full, on which the folder {} is"),
    (errno.EROFS, "the folder {} is on a file system that can't be written"),
    (errno.EACCES, "you have no leave to write into the folder {}: Permission denied")])
def test_why_not_written(tmp_path: pathlib.Path, monkeypatch: pytest.MonkeyPatch, number: int, says: str) -> None:
    """A folder that can't be written is told from a disk that is full."""
    def refuse(**_: Any) -> None:
        raise OSError(number, os.strerror(number))

    monkeypatch.setattr(reasons.tempfile, "TemporaryFile", refuse)
    assert reasons.why_not_stored(f"{tmp_path}/new.db") == says.format(tmp_path)


def test_ports(monkeypatch: pytest.MonkeyPatch) -> None:
    """Who listens at a port is named, by its process or by its user; and a port that only root may have."""
    with socket.create_server(("127.0.0.1", 0)) as door:
        port = door.getsockname()[1]
        assert reasons.why_not_listening(port).startswith(f"the port {port} is taken by the process {os.getpid()} (")
        monkeypatch.setattr(system, "open_files", lambda process: [])
        assert reasons.why_not_listening(port) == f"the port {port} is taken by a program of the user {system.user_name(os.geteuid())}"
    assert reasons.why_not_listening(port) == f"the system doesn't let it listen at the port {port}, or take a connection there"
    monkeypatch.setattr(reasons.os, "geteuid", lambda: 1_000)
    least = system.least_free_port()
    if least > 1:
        assert reasons.why_not_listening(least - 1) == f"you have no leave to listen at the port {least - 1}; everybody may from {least} on"


@pytest.mark.parametrize("status, says, does, got, told", [
    (0, "", "", 0, "all 5 connections are served"),
    (2, "usage fault", "", 2, "the desk ended with status 2: it doesn't take its words (it says: usage fault)"),
    (6, "store fault", "", 6, "the desk ended with status 6: it can't use the store {}/fold: it is a folder (it says: store fault)"),
    (8, "no memory", "", 8, "the desk ended with status 8: it is out of memory (it says: no memory)"),
    (9, "edition fault 7", "", 9, "the desk ended with status 9: the store {}/fold is of edition 7, which another edition of the desk made and this "
     "one doesn't read: serve it with the desk that made it, or name another store (it says: edition fault 7)"),
    (0, "", "kill -9 $$", 137, "the desk ended with status 137: it was ended by the signal SIGKILL")])
def test_the_programs_end(tmp_path: pathlib.Path, status: int, says: str, does: str, got: int, told: str) -> None:
    """The program's status is kept, and told in one line."""
    (tmp_path / "fold").mkdir()
    ended, out, error = silvervole("serve", tmp_path / "fold", "--connections", "5", "--port", free_port(), env=desk(tmp_path, "", status, says, does))
    assert (ended, out, error) == (got, "", f"silvervole serve: {told.format(tmp_path)}\n")


def test_a_port_that_is_taken(tmp_path: pathlib.Path) -> None:
    """What the program calls a listen fault."""
    with socket.create_server(("127.0.0.1", 0)) as door:
        port = door.getsockname()[1]
        status, _, error = silvervole("serve", "-", "--port", port, env=desk(tmp_path, "", 7, "listen fault"))
    assert status == 7 and f"status 7: the port {port} is taken by the process {os.getpid()} (" in error


@pytest.mark.parametrize("words", [("--port", "65536"), ("--workers", "17"), ("--workers", "0"), ("--connections", "1000001"), ("a", "b")])
def test_wrong_words(words: tuple[str, ...]) -> None:
    """What the program would refuse is refused before it is started."""
    status, _, error = silvervole("serve", *words, env=plain_environment())
    assert status == 18 and error.count("\n") == 1


def started(folder: pathlib.Path, store: str, port: int, seconds: int = 0) -> subprocess.Popen[str]:
    """The command over a program that only listens, after so many seconds, once it says so."""
    program = folder / "listens"
    program.write_text(LISTENING.replace("door =", f"time.sleep({seconds})\ndoor ="), encoding="utf-8")
    program.chmod(0o755)
    command = subprocess.Popen([COMMAND, "serve", store, "--port", str(port)], stderr=subprocess.PIPE, text=True,
                               env={**plain_environment(), "SILVERVOLE_PROGRAM": str(program)})
    kept = "in memory, so that all is lost when it ends" if store == "-" else f"in {store}"
    assert command.stderr is not None
    if seconds:
        assert command.stderr.readline().startswith("silvervole serve: the desk doesn't listen yet: a large store takes a while to open, and of one of ")
    assert command.stderr.readline() == f"silvervole serve: listening at http://127.0.0.1:{port}, sites are kept {kept}; an interrupt (Ctrl+C) ends it\n"
    return command


def test_slow_start(tmp_path: pathlib.Path) -> None:
    """A program that takes long until it listens is waited for, and that is said once."""
    command = started(tmp_path, f"{tmp_path}/desk.db", free_port(), 7)
    command.send_signal(signal.SIGINT)
    command.communicate(timeout=60)


@pytest.mark.parametrize("sent", [signal.SIGINT, signal.SIGTERM])
def test_interrupt(tmp_path: pathlib.Path, sent: signal.Signals) -> None:
    """An interrupt ends the program, and it is said where sites are kept."""
    port = free_port()
    command = started(tmp_path, f"{tmp_path}/desk.db", port)
    command.send_signal(sent)
    _, error = command.communicate(timeout=60)
    assert (command.returncode, error) == (130, f"silvervole serve: interrupted; what was answered is kept in {tmp_path}/desk.db\n")
    assert system.listening(port) is None


def test_interrupt_with_a_connection(tmp_path: pathlib.Path) -> None:
    """An open connection is waited for; once it is closed, or after a second interrupt, the program ends."""
    for again in (False, True):
        port = free_port()
        command = started(tmp_path, "-", port)
        with socket.create_connection(("127.0.0.1", port)):
            command.send_signal(signal.SIGINT)
            assert command.stderr is not None
            assert command.stderr.readline() == "silvervole serve: waiting for 1 open connection, at most 3 seconds\n"
            began = time.monotonic()
            if again:
                command.send_signal(signal.SIGINT)
                command.wait(timeout=60)
        _, error = command.communicate(timeout=60)
        assert (command.returncode, error) == (130, "silvervole serve: interrupted\n") and time.monotonic() - began < 30
        assert system.listening(port) is None
