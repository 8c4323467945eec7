"""The desk's program: where it is, and audits by it."""
from __future__ import annotations

import os
import pathlib
import shutil
import subprocess
from typing import IO

from silvervole.books import FORTY, THIRTY
from silvervole.collect.ends import End, Stop
from silvervole.faults import Fault, end_of, fault_of

SETTING = "SILVERVOLE_PROGRAM"
DESK = "act_desk"
# It audits, and does nothing else, so that it is built sooner.
AUDITOR = "act_audit"
CRATES = pathlib.Path(__file__).resolve().parent.parent / "crates"
INSTALLED = pathlib.Path("/usr/bin")
# The store that is the program's memory.
MEMORY = "-"
FOUND, FAILED = 0, 1


def find_program(names: tuple[str, ...] = (DESK,)) -> str:
    """The path of a program of one of these names: what SILVERVOLE_PROGRAM names, else the clone's, the package's, or one on PATH."""
    if given := os.environ.get(SETTING):
        if found := shutil.which(given):
            return found
        raise Stop(End.PROGRAM, f"{SETTING} names {given}, which is no program that can be started")
    for name in names:
        for path in (CRATES / name / "out" / name, INSTALLED / name):
            if path.is_file() and os.access(path, os.X_OK):
                return str(path)
        if found := shutil.which(name):
            return found
    raise Stop(End.PROGRAM, f"the desk's program isn't there: build it with `rt run` in crates/{names[-1]}, "
                            f"install the package, or name it in {SETTING}")


def start(program: str, words: list[str], given: IO[bytes] | int, told: IO[bytes] | int, apart: bool = False) -> subprocess.Popen[bytes]:
    """The program with these words, started; what it says on standard error is read by whoever waits for it.

    Where it is apart, an interrupt at the terminal doesn't reach it.
    """
    try:
        return subprocess.Popen([program, *words], stdin=given, stdout=told, stderr=subprocess.PIPE, start_new_session=apart)
    except OSError as error:
        raise Stop(End.PROGRAM, f"{program} can't be started: {error.strerror}") from None


def words_of(book: str, store: str = MEMORY) -> list[str]:
    """The words of the desk's program before those of a command: the book, where that has a word, and the store."""
    # A store of the word's name would be taken for it.
    return [*([FORTY] if book == FORTY else []), f"./{store}" if store == FORTY else store]


def find_auditor(book: str) -> str:
    """The path of a program that audits by a book: the auditor has that of thirty alone."""
    program = find_program((DESK, AUDITOR) if book == THIRTY else (DESK,))
    if book != THIRTY and is_auditor(program):
        raise Stop(End.PROGRAM, f"{program} has the book of {THIRTY} alone: that of {book} is in {DESK}")
    return program


def is_auditor(program: str) -> bool:
    """Whether a program audits, and does nothing else."""
    return os.path.basename(program) == AUDITOR


def start_audit(given: IO[bytes] | int, told: IO[bytes] | int, book: str = THIRTY) -> subprocess.Popen[bytes]:
    """An audit of what is given by a book, started."""
    program = find_auditor(book)
    return start(program, [] if is_auditor(program) else [*words_of(book), "audit"], given, told)


class Audit:
    """An audit of one snapshot that is under way."""

    def __init__(self, snapshot: bytes, book: str = THIRTY) -> None:
        self.snapshot = snapshot
        # A file rather than a pipe, so that nothing waits until it is read.
        with open(os.memfd_create("snapshot"), "w+b") as file:
            file.write(snapshot)
            file.seek(0)
            self.process = start_audit(file, subprocess.PIPE, book)

    def report(self) -> bytes:
        """The report, once it is written; a Stop with the program's own status where it wrote none."""
        out, said = self.process.communicate()
        status = self.process.returncode
        if status in (FOUND, FAILED):
            return out
        raise refusal(fault_of(status, said))

    def end(self) -> None:
        """Ends the audit, where it hasn't ended by itself."""
        if self.process.poll() is None:
            self.process.kill()
            self.process.communicate()


def table_of(cases: bytes, book: str = THIRTY) -> bytes | None:
    """What the desk's program writes of a list of test cases by a book; None where it refuses the list, or hasn't the word."""
    program = find_auditor(book)
    if is_auditor(program):
        return None
    with open(os.memfd_create("cases"), "w+b") as file:
        file.write(cases)
        file.seek(0)
        process = start(program, [*words_of(book), "cases"], file, subprocess.PIPE)
    try:
        table, _ = process.communicate()
    finally:
        if process.poll() is None:
            process.kill()
            process.communicate()
    return table if process.returncode in (FOUND, FAILED) else None


def refusal(fault: Fault) -> Stop:
    """The end of a command whose audit ended so."""
    return Stop(end_of(fault), f"the desk refuses the audit: {fault}")
