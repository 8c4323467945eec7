"""How the scripts of this folder time audits by the built program."""
import contextlib
import os
import re
import select
import subprocess
import sys
import tempfile
import time

ROOT = os.path.dirname(os.path.dirname(os.path.abspath(__file__)))
PROGRAM = os.path.join(ROOT, "crates", "act_desk", "out", "act_desk")


def needs_program():
    """Ends the script where the program isn't built."""
    if not os.path.exists(PROGRAM):
        sys.exit("no program: `rt run -- - audit < stdin` in crates/act_desk builds it")


def option(words, name):
    """Takes an option and its value from the words; None where it isn't there."""
    if name not in words:
        return None
    place = words.index(name)
    _, value = words[place:place + 2]
    del words[place:place + 2]
    return value


def started(stdin, **pipe):
    return subprocess.Popen([PROGRAM, "-", "audit"], stdin=stdin, stdout=subprocess.PIPE, **pipe)


def reported(child):
    """Takes the program's report, and ends the script where there is none."""
    child.communicate()
    if child.returncode not in (0, 1):
        sys.exit(f"the audit ended with {child.returncode}")


@contextlib.contextmanager
def file_of(page):
    """A file that holds the snapshot, and is gone afterwards."""
    with tempfile.NamedTemporaryFile(suffix=".json") as made:
        made.write(page)
        made.flush()
        yield made.name


def timed(path):
    """The seconds of one audit of the snapshot of a file."""
    with open(path, "rb") as stdin:
        start = time.perf_counter()
        reported(started(stdin))
        return time.perf_counter() - start


def least_seconds(page, runs):
    """The least seconds of so many audits of a snapshot."""
    with file_of(page) as path:
        return min(timed(path) for _ in range(runs))


def memory(page):
    """The most memory in kilobytes that an audit of a snapshot holds, up to its report. It is asked once the report
    comes: as that is longer than the pipe, the program is there still. What the system says of a program that has
    ended is no less than what this script held when it started it."""
    with file_of(page) as path, open(path, "rb") as stdin:
        child = started(stdin, pipesize=4_096)
        select.select([child.stdout], [], [])
        with open(f"/proc/{child.pid}/status", encoding="ascii") as status:
            held = int(re.findall(r"VmHWM:\s+(\d+) kB", status.read())[0])
        reported(child)
        return held
