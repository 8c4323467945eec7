"""How the scripts of this folder compare two ways of judging pages by turns: two programs, or two books of one."""
import contextlib
import glob
import json
import os
import sys
from typing import NamedTuple

from audits import ROOT, file_of
from edited import edits

sys.path.insert(0, os.path.join(ROOT, "tools"))
from serving import Serving, reply_in, request  # noqa: E402

# How an audit ends: no rule failed, some rule failed, want of memory.
ENDS = (0, 1, 8)


class Side(NamedTuple):
    """A program with the words for a book, by the name that is printed."""

    name: str
    program: str
    book: tuple[str, ...] = ()


def audit_seconds(path, side):
    """The processor seconds of one audit of the snapshot of a file."""
    child = os.fork()
    if not child:
        os.dup2(os.open(path, os.O_RDONLY), 0)
        nowhere = os.open(os.devnull, os.O_WRONLY)
        os.dup2(nowhere, 1)
        os.dup2(nowhere, 2)
        os.execv(side.program, [side.program, *side.book, "-", "audit"])
    _, status, used = os.wait4(child, 0)
    if os.waitstatus_to_exitcode(status) not in ENDS:
        sys.exit(f"the audit ended with {os.waitstatus_to_exitcode(status)}")
    return used.ru_utime + used.ru_stime


def spent(desk):
    """The processor seconds that a desk took so far."""
    total = 0
    for path in glob.glob(f"/proc/{desk.program.pid}/task/*/schedstat"):
        with open(path, encoding="ascii") as file:
            total += int(file.read().split()[0])
    return total / 1e9


class Desk:
    """A desk of one side, over one connection, with a site of one page."""

    def __init__(self, desk, connection):
        self.desk = desk
        self.connection = connection
        self.rev = 0
        self.ask(request("PUT /sites/acme"))

    def ask(self, sent):
        """The processor seconds of an accepted request."""
        before = spent(self.desk)
        self.connection.sendall(sent)
        got = reply_in(self.connection)
        if not got.startswith(b"HTTP/1.1 20"):
            sys.exit(f"refused: {got[:200]!r}")
        return spent(self.desk) - before

    def edit_seconds(self, page, body):
        """The processor seconds of an edit of a page that is put anew before."""
        self.ask(request("PUT /sites/acme/pages/home", body=page, rev=self.rev))
        took = self.ask(request("POST /sites/acme/pages/home/edits", body=body, rev=self.rev + 1))
        self.rev += 2
        return took


class Turns:
    """Two sides that take turns: the least processor time of each in so many runs, and how many times as long the second may take."""

    def __init__(self, sides, runs):
        self.sides = sides
        self.runs = runs

    def line(self, name, most, taken):
        """Prints how long the two sides take at least; whether the second takes too many times as long."""
        first, second = (min(took) for took in zip(*taken))
        over = second > most * first
        print(f"{name:<58} {self.sides[0].name} {first * 1000:>8.2f} ms   {self.sides[1].name} {second * 1000:>8.2f} ms   "
              f"{second / first:.2f} times{f', more than {most}' if over else ''}", flush=True)
        return over

    def audit(self, name, page, most):
        """Whether the second side takes too long to audit a page."""
        with file_of(page) as path:
            return self.line(name, most, [[audit_seconds(path, side) for side in self.sides] for _ in range(self.runs)])

    def edits(self, page, most):
        """Of which edits of a page the second side takes too long: one of each kind."""
        with contextlib.ExitStack() as stack:
            desks = []
            for side in self.sides:
                words = [*side.book, "-", "serve", "--port", "PORT", "--workers", "1", "--connections", "10"]
                serving = stack.enter_context(Serving(words=words, program=side.program))
                desks.append(Desk(serving, stack.enter_context(serving.connect())))
            for kind, edit in edits(json.loads(page)["nodes"]):
                body = json.dumps({"edits": [edit]}).encode()
                yield self.line(f"    {kind}", most, [[desk.edit_seconds(page, body) for desk in desks] for _ in range(self.runs)])
