"""The word serve."""
from __future__ import annotations

import os
import re
import subprocess
import time
from dataclasses import dataclass
from typing import Sequence

from silvervole.books import add_book
from silvervole.collect.ends import End, run_command, say
from silvervole.collect.options import whole
from silvervole.faults import Fault, fault_of
from silvervole.program import MEMORY, find_program, start, words_of
from silvervole.words import Parser

from . import system
from .reasons import why_not_listening, why_not_stored

USAGE = "{0} [STORE] [--port N] [--workers W] [--connections C] [--book BOOK]"
STORE, PORT, WORKERS, CONNECTIONS = "desk.db", 8080, 4, 1_000_000
GREATEST_PORT, MOST_WORKERS, MOST_CONNECTIONS = 65_535, 16, 1_000_000
STEP_SECONDS = 0.02
# After how long it is said that the program doesn't listen yet.
SLOW_SECONDS = 5.0
# How long open connections are waited for by an interrupt, and then the program's own end.
WAIT_SECONDS, END_SECONDS = 3.0, 10.0
EDITION = re.compile(r"edition fault ([0-9]+)")


@dataclass(frozen=True)
class Serving:
    """What is served."""

    store: str
    port: int
    workers: int
    connections: int
    book: str

    @property
    def words(self) -> list[str]:
        """The program's words for it."""
        return [*words_of(self.book, self.store), "serve", "--port", str(self.port), "--workers", str(self.workers), "--connections", str(self.connections)]

    @property
    def kept(self) -> str:
        """Where sites are kept."""
        return "in memory, so that all is lost when it ends" if self.store == MEMORY else f"in {os.path.abspath(self.store)}"


def parser(program: str = "serve", example: str = "") -> Parser:
    """The words of the command."""
    made = Parser(prog=program, usage=USAGE.format(program), example=example,
                  description="Serves the desk over HTTP at a port of 127.0.0.1, and says where it listens and over which store. It ends with the "
                              "program's own status. docs/use/http.md has the requests, docs/use/team.md what stands before it.")
    made.add_argument("store", metavar="STORE", nargs="?", default=STORE, help=f"the file that sites are kept in; - is memory ({STORE})")
    made.add_argument("--port", metavar="N", type=whole(0, GREATEST_PORT), default=PORT, help=f"the port; at 0 the system chooses one ({PORT})")
    made.add_argument("--workers", metavar="W", type=whole(1, MOST_WORKERS), default=WORKERS,
                      help=f"how many books of rules judge beside each other ({WORKERS})")
    made.add_argument("--connections", metavar="C", type=whole(1, MOST_CONNECTIONS), default=CONNECTIONS,
                      help=f"how many connections are served before it ends ({CONNECTIONS:,})")
    add_book(made)
    return made


class Server:
    """The program while it serves."""

    def __init__(self, program: str, serving: Serving) -> None:
        self.program = program
        self.serving = serving
        self.process = start(find_program(), serving.words, subprocess.DEVNULL, subprocess.DEVNULL, apart=True)
        self.port = serving.port

    def run(self) -> int:
        """The program's own status, once it ended; that of an interrupt where that ended it."""
        try:
            self.tell_when_listening()
            _, said = self.process.communicate()
        except KeyboardInterrupt:
            self.end_in_order()
            return End.INTERRUPTED
        fault = fault_of(self.process.returncode, said)
        self.tell_end(fault)
        return fault.status

    def tell_when_listening(self) -> None:
        """Says where it listens, once it does; and in a line of its own what takes long where that does."""
        slow = time.monotonic() + SLOW_SECONDS
        while self.process.poll() is None:
            if time.monotonic() > slow:
                say(self.program, "the desk doesn't listen yet: a large store takes a while to open, and of one of another edition all pages are audited anew")
                slow = float("inf")
            if ports := system.listening_ports(self.process.pid):
                self.port = ports[0]
                say(self.program, f"listening at http://127.0.0.1:{self.port}, sites are kept {self.serving.kept}; an interrupt (Ctrl+C) ends it")
                return
            time.sleep(STEP_SECONDS)

    def end_in_order(self) -> None:
        """Ends the program once no connection is open, or after three seconds; at once where it is interrupted again."""
        try:
            self.wait_for_connections()
        except KeyboardInterrupt:
            pass  # at once, then
        self.process.terminate()
        try:
            self.process.communicate(timeout=END_SECONDS)
        except (subprocess.TimeoutExpired, KeyboardInterrupt):
            self.process.kill()
            self.process.communicate()
        say(self.program, "interrupted" if self.serving.store == MEMORY else f"interrupted; what was answered is kept {self.serving.kept}")

    def wait_for_connections(self) -> None:
        """Waits until no connection is open, at most three seconds."""
        end = time.monotonic() + WAIT_SECONDS
        if number := system.connections(self.port):
            say(self.program, f"waiting for {number} open connection{'' if number == 1 else 's'}, at most {WAIT_SECONDS:g} seconds")
        while system.connections(self.port) and self.process.poll() is None and time.monotonic() < end:
            time.sleep(STEP_SECONDS)

    def tell_end(self, fault: Fault) -> None:
        """Says how the program ended."""
        if fault.status == End.WRITTEN:
            say(self.program, f"all {self.serving.connections:,} connections are served")
        else:
            say(self.program, f"the desk ended with status {fault.status}: {self.why(fault)}{f' (it says: {fault.line})' if fault.line else ''}")

    def why(self, fault: Fault) -> str:
        """Why the program ended, with what to do where there is something."""
        if fault.status == End.FAULT_LISTENING:
            return why_not_listening(self.serving.port)
        if fault.status == End.FAULT_STORE:
            return f"it can't use the store {self.serving.store}: {why_not_stored(self.serving.store)}"
        if (found := EDITION.fullmatch(fault.line)) is not None:
            return (f"the store {self.serving.store} is of edition {found[1]}, which another edition of the desk made and this one doesn't read: "
                    "serve it with the desk that made it, or name another store")
        return str(Fault(fault.status, ""))


def main(words: Sequence[str], program: str = "serve", example: str = "") -> int:
    """The status of a run."""
    def work() -> int:
        given = parser(program, example).parse_args(words)
        return Server(program, Serving(given.store, given.port, given.workers, given.connections, given.book)).run()

    return run_command(program, work)
