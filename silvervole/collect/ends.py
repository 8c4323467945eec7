"""How a command ends: its statuses, and the one line that says why."""
from __future__ import annotations

import enum
import gc
import os
import signal
import sys
import threading
import traceback
import warnings
from typing import Callable

# A page is many small objects that live as long as it does: to look for garbage after each 700 of them takes longer than to make them.
GARBAGE_AFTER = 100_000


class End(enum.IntEnum):
    """The statuses of the commands. Of many pages' the greatest is the worst.

    From 2 to 9 they are those of the desk's own program. The others begin at 10, so that a pipeline's status tells who refused.
    """

    WRITTEN = 0
    FAILED = 1
    FAULT_WORDS = 2
    FAULT_READING = 3
    FAULT_WRITING = 4
    FAULT_SNAPSHOT = 5
    FAULT_STORE = 6
    FAULT_LISTENING = 7
    FAULT_MEMORY = 8
    FAULT_EDITION = 9
    NOT_HTML = 10
    MOVED = 11
    LIMIT = 12
    DOCUMENT = 13
    LOAD = 14
    TIME = 15
    OUTPUT = 16
    BROWSER = 17
    USAGE = 18
    INPUT = 19
    STEP = 20
    PROGRAM = 21
    SIGN_IN = 22
    OWN_FAULT = 70
    DESK = 23
    REVISION = 24
    INTERRUPTED = 130


class Stop(Exception):
    """Ends a page, or the command, with a status and one line."""

    def __init__(self, end: End, line: str) -> None:
        super().__init__(line)
        self.end = end
        self.line = one_line(line)


def one_line(text: str) -> str:
    """The text with each run of white space as one space, and control characters spelt out.

    What a page names, and an address too, may hold characters that steer a terminal.
    """
    line = " ".join(text.split())
    return line if line.isprintable() else "".join(c if c.isprintable() else f"\\u{ord(c):04x}" for c in line)


def first_line(error: Exception) -> str:
    """What a driver's error says, without its stack."""
    text = (getattr(error, "msg", None) or str(error)).strip()
    return text.splitlines()[0] if text else type(error).__name__


_said = threading.Lock()


def say(program: str, line: str) -> None:
    """Writes one line on standard error, where there is one."""
    with _said:
        try:
            if sys.stderr is not None:
                sys.stderr.write(f"{program}: {one_line(line)}\n")
                sys.stderr.flush()
        except OSError:
            pass  # nothing is left to say it on


def need_output() -> None:
    """Refuses a standard output that was closed before the command began."""
    if sys.stdout is None:
        raise Stop(End.OUTPUT, "standard output is closed")


def write_out(data: bytes) -> None:
    """Writes bytes on standard output, all of them or a Stop."""
    try:
        sys.stdout.buffer.write(data)
        sys.stdout.buffer.flush()
    except OSError as error:
        # What is left in the buffer must not be tried again at exit.
        os.dup2(os.open(os.devnull, os.O_WRONLY), sys.stdout.fileno())
        raise Stop(End.OUTPUT, f"standard output can't be written: {error.strerror}") from None


def write_file(path: str | os.PathLike[str], data: bytes) -> None:
    """Writes a file whole: it is there under its name when it is complete, or not at all."""
    part = f"{os.fspath(path)}.part"
    try:
        with open(part, "wb") as file:
            file.write(data)
        os.replace(part, path)
    except OSError as error:
        remove(part)
        raise Stop(End.OUTPUT, f"{os.fspath(path)} can't be written: {error.strerror}") from None


def remove(path: str | os.PathLike[str]) -> None:
    """Takes a file away, where it is there."""
    try:
        os.unlink(path)
    except OSError:
        pass


def quiet_libraries() -> None:
    """Keeps the libraries from writing lines of their own, such as of a driver that dies."""
    import logging  # only here, since it loads slowly
    logging.disable(logging.CRITICAL)
    warnings.simplefilter("ignore")


def stop_on_signals() -> None:
    """Makes a termination an interruption, so that browsers are closed then too."""
    def interrupt(number: int, frame: object) -> None:
        raise KeyboardInterrupt

    for number in (signal.SIGTERM, signal.SIGHUP):
        signal.signal(number, interrupt)


def run_command(program: str, work: Callable[[], int]) -> int:
    """The status of a command's work; a Stop and an interruption are a line on standard error."""
    try:
        gc.set_threshold(GARBAGE_AFTER)
        stop_on_signals()
        need_output()
        return work()
    except Stop as stop:
        say(program, stop.line)
        return stop.end
    except KeyboardInterrupt:
        say(program, "interrupted")
        return End.INTERRUPTED
    except Exception:  # Python would end with 1, as where something failed on a page
        say(program, "a fault of the command itself; please report it with these lines:")
        traceback.print_exc()
        return End.OWN_FAULT
