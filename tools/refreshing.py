"""Kills the built program while it audits a store of an earlier edition anew, for tools/crash."""
import contextlib
import json
import os
import sqlite3
import subprocess
import sys
import tempfile
import time

from serving import PROGRAM, Serving, reply_in, request, told
from stores import copy_store, edition, integrity, ran, set_back

# The sites with their numbers of pages: 300 together.
SITES = {"acme": 180, "zeta": 120}
ENTRIES = 60
EARLIER, WHILE, NOW = 1, 0, 3_003
RUNS = (("report", "acme"), ("csv", "zeta"), ("serve", "--port", "0", "--workers", "4", "--connections", "1"))
TABLES = ("sites", "members", "pages", "judgements")


def asked(desk, line, body=b"", caller="ann"):
    """The body of an accepted reply over a connection of its own."""
    with desk.connect() as link:
        link.sendall(request(line, caller, body))
        status, said = told(reply_in(link)) or (None, b"")
    if status not in (200, 201):
        sys.exit(f"{line}: {status} {said[:200]!r}")
    return said


def judge_one(desk, site):
    """Has bob judge the first outcome of a site's page p000 that a person is to judge."""
    asked(desk, f"PUT /sites/{site}/members/bob", b'{"role":"judge"}')
    rows = json.loads(asked(desk, f"GET /sites/{site}/pages/p000/outcomes"))["outcomes"]
    row = next(row for row in rows if row["automatic"] == "cantTell" and row["rule"] != "cf77f2")
    judged = {"rule": row["rule"], "node": row["node"], "verdict": "passed", "digest": row["digest"]}
    asked(desk, f"POST /sites/{site}/pages/p000/judgements", json.dumps(judged).encode(), "bob")


def fill(folder, snapshots):
    """Makes the store of a folder: its sites, their pages of these snapshots in turn, and a judgement in each."""
    with Serving(workers=4, store=os.path.join(folder, "desk.db"), seconds=60) as desk:
        for site, pages in SITES.items():
            asked(desk, f"PUT /sites/{site}")
            for first in range(0, pages, ENTRIES):
                entries = [b'{"page":"p%03d","rev":0,"snapshot":%s}' % (page, snapshots[page % len(snapshots)])
                           for page in range(first, min(first + ENTRIES, pages))]
                asked(desk, f"POST /sites/{site}/import", b'{"pages":[%s]}' % b",".join(entries))
            judge_one(desk, site)


def reports(folder):
    """What the program reports of both sites, one run after another; in the first one all is audited anew where it has to be."""
    return [ran(PROGRAM, folder, "desk.db", form, site) for site in SITES for form in ("report", "csv", "earl")]


def rows(folder):
    """The rows that no audit changes, from a copy of the store of a folder."""
    with tempfile.TemporaryDirectory() as copy:
        copy_store(folder, copy)
        with contextlib.closing(sqlite3.connect(os.path.join(copy, "desk.db"))) as store:
            return [sorted(store.execute(f"SELECT * FROM {table}")) for table in TABLES]


def killed(folder, words, after):
    """Starts a run over the store of a folder, and kills it after so many seconds."""
    with subprocess.Popen([PROGRAM, "desk.db", *words], cwd=folder, stdin=subprocess.DEVNULL, stdout=subprocess.DEVNULL,
                          stderr=subprocess.DEVNULL) as process:
        time.sleep(after)
        process.kill()


class Base:
    """A store of an earlier edition in a folder, what it is to tell in the end, and how long that takes."""

    def __init__(self, folder, snapshots):
        self.folder = folder
        fill(folder, snapshots)
        self.wanted = reports(folder)
        set_back(folder, EARLIER)
        self.rows = rows(folder)
        with tempfile.TemporaryDirectory() as copy:
            copy_store(folder, copy)
            start = time.monotonic()
            ran(PROGRAM, copy, "desk.db", *RUNS[0])
            self.seconds = time.monotonic() - start
            self.differ = [] if reports(copy) == self.wanted else ["without a kill the reports are others"]

    def run(self, chance, number):
        """One run with a kill, each fourth time with two: the edition that the last one left, and what differs."""
        with tempfile.TemporaryDirectory() as folder:
            copy_store(self.folder, folder)
            for _ in range(2 if number % 4 == 0 else 1):
                killed(folder, chance.choice(RUNS), chance.uniform(0, self.seconds))
            left = edition(folder)
            differ = [] if left in (EARLIER, WHILE, NOW) else [f"the edition is {left}"]
            if rows(folder) != self.rows:
                differ.append("the kill changed more than outcomes and the edition")
            if number % 10 == 0 and (said := integrity(folder)) not in ("ok", None):
                differ.append(f"sqlite3 says {said}")
            if reports(folder) != self.wanted:
                differ.append("the next runs report otherwise than without a kill")
            if (last := edition(folder)) != NOW or rows(folder) != self.rows:
                differ.append(f"the edition is {last} in the end, or more than outcomes changed")
            return left, differ


def kill_runs(runs, chance, snapshots):
    """How many differences so many runs have. Prints their counts."""
    with tempfile.TemporaryDirectory() as folder:
        base = Base(folder, snapshots)
        print(f"{sum(SITES.values())} pages are audited anew in {base.seconds:.2f} s", flush=True)
        found: dict[int | None, int] = {}
        differ = list(base.differ)
        for number in range(1, runs + 1):
            left, others = base.run(chance, number)
            found[left] = found.get(left, 0) + 1
            differ += [f"run {number}, which left edition {left}: {one}" for one in others]
    for one in differ:
        print(one, flush=True)
    told_of = ", ".join(f"{found.get(number, 0)} {when}" for number, when in (
        (EARLIER, "before the audit"), (WHILE, "amid it"), (NOW, "after it")))
    print(f"{runs} kills of an audit of all pages: {told_of}; {len(differ)} differences", flush=True)
    return len(differ)
