"""A desk of its own in memory, on which a page is sent for a trial: it does with a version what the other desk would do."""
from __future__ import annotations

import hashlib
import json
import socket
import subprocess
import time
from types import TracebackType

from silvervole.collect.ends import End, Stop
from silvervole.desk.asking import Access, Desk
from silvervole.program import find_program, words_of
from silvervole.view.outcomes import read_outcomes
from silvervole.view.report import Finding, Report
from silvervole.view.rules import RuleTable

from .delivery import Prepared, Sent

HOST, SECONDS = "127.0.0.1", 30


class Trial:
    """A desk in memory that judges by a book; it listens once it is made, until it is ended."""

    def __init__(self, book: str) -> None:
        with socket.socket() as taken:
            taken.bind((HOST, 0))
            self.port = taken.getsockname()[1]
        self.process = subprocess.Popen([find_program(), *words_of(book), "serve", "--port", str(self.port), "--workers", "1",
                                         "--connections", "1000000"],
                                        stdin=subprocess.DEVNULL, stdout=subprocess.DEVNULL, stderr=subprocess.DEVNULL)
        end = time.monotonic() + SECONDS
        while self.process.poll() is None and time.monotonic() < end:
            try:
                socket.create_connection((HOST, self.port), timeout=1).close()
                return
            except OSError:
                time.sleep(0.01)
        self.process.kill()
        raise Stop(End.DESK, f"the desk for the trial doesn't listen: it ended with {self.process.wait()}")

    def asked_by(self, caller: str) -> Desk:
        """The desk as this caller asks it."""
        return Desk(Access(f"http://{HOST}:{self.port}", caller))

    def end(self) -> None:
        """Ends it."""
        self.process.terminate()
        self.process.wait()


class Rehearsal:
    """Desks in memory, for the time of a with statement: one by the book that is named, or by that of each kept page."""

    def __init__(self, table: RuleTable, book: str | None = None) -> None:
        self.table, self.book = table, book
        self.trials: dict[str, Trial] = {}
        self.count = 0

    def __enter__(self) -> Rehearsal:
        find_program()
        return self

    def __exit__(self, kind: type[BaseException] | None, error: BaseException | None, trace: TracebackType | None) -> None:
        for trial in self.trials.values():
            trial.end()

    def trial(self, kept: Report | None) -> Trial:
        """The desk by the book of what is kept."""
        book = self.book or self.table.book_with(kept.rules if kept is not None else ())
        if book not in self.trials:
            self.trials[book] = Trial(book)
        return self.trials[book]

    def send(self, prepared: Prepared) -> Sent:
        """What would become of a page: its kept version is put and judged as it is kept, and then the next one is put."""
        self.count += 1
        site, page = f"/sites/trial-{self.count}", f"/sites/trial-{self.count}/pages/page"
        judged = [one for one in prepared.kept.report.findings if one.judge] if prepared.kept.report is not None else []
        judges = sorted({one.judge for one in judged})
        sender = next(name for number in range(len(judges) + 1) if (name := f"sender-{number}") not in judges)
        trial = self.trial(prepared.kept.report)
        owner, revision = trial.asked_by(sender), 0
        owner.ask("PUT", site, b"")
        if prepared.kept.page is not None:
            owner.ask("PUT", page, prepared.kept.snapshot, 0)
            revision = 1
        for judge in judges:
            owner.ask("PUT", f"{site}/members/{judge}", b'{"role":"judge"}')
        for finding in judged:
            trial.asked_by(finding.judge).ask("POST", f"{page}/judgements", judgement(finding))
        owner.ask("PUT", page, prepared.body, revision)
        report = read_outcomes(owner.get(f"{page}/outcomes"), "the reply to the trial")
        owner.ask("DELETE", page, revision=revision + 1)
        return Sent(prepared, revision + 1, prepared.page, report)


def judgement(finding: Finding) -> bytes:
    """The judgement that a finding shows."""
    digest = hashlib.sha256((finding.evidence or "").encode("utf-8")).hexdigest()
    return json.dumps({"rule": finding.rule, "node": finding.node, "verdict": finding.outcome, "digest": digest}).encode("ascii")
