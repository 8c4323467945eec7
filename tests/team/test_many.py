"""Audits of many snapshots by GNU parallel."""
from __future__ import annotations

import os
import pathlib
import re
import shutil
import subprocess
import time

from serving import PROGRAM, ROOT

from ..support import note, same
from .packages import needs

pytestmark = needs("parallel")

DOCUMENT = pathlib.Path(ROOT, "docs", "use", "team.md")
SNAPSHOT = pathlib.Path(ROOT, "examples", "ordinary.json")
PAGES = 100
BROKEN = "it's no snapshot"


def command(jobs: int) -> str:
    """The command of docs/use/team.md with so many jobs."""
    blocks = re.findall(r"^```sh\n(.*?)^```$", DOCUMENT.read_text(encoding="utf-8"), re.MULTILINE | re.DOTALL)
    return next(text for text in blocks if text.startswith("find snapshots")).replace("--jobs 100%", f"--jobs {jobs}")


def audited(folder: str, jobs: int) -> float:
    """How many snapshots a second the command of docs/use/team.md audits with so many jobs; each report is as it should be,
    and the one file that is no snapshot is named."""
    began = time.monotonic()
    done = subprocess.run(["bash", "-c", command(jobs)], cwd=folder, capture_output=True, check=False, stdin=subprocess.DEVNULL,
                          env={**os.environ, "PATH": f"{folder}:{os.environ['PATH']}", "HOME": folder})
    seconds = time.monotonic() - began
    same(f"{jobs} jobs: what is said of the file that is no snapshot", (done.returncode, done.stderr.decode()),
         (1, f"snapshot fault 1 NotJson\nnot audited: snapshots/{BROKEN}.json\n"))
    with open(SNAPSHOT, "rb") as snapshot:
        wanted = subprocess.run([PROGRAM, "-", "audit"], stdin=snapshot, capture_output=True, check=False).stdout
    reports = list(pathlib.Path(folder, "snapshots").glob("*.txt"))
    same(f"{jobs} jobs: reports that aren't right", [report.name for report in reports if report.stem != BROKEN and report.read_bytes() != wanted], [])
    same(f"{jobs} jobs: their number", len(reports), PAGES + 1)
    for report in reports:
        report.unlink()
    return PAGES / seconds


def test_many_pages(folder: str) -> None:
    """The command of docs/use/team.md, on one core and on four."""
    os.mkdir(f"{folder}/snapshots")
    os.symlink(PROGRAM, f"{folder}/act_desk")
    for number in range(PAGES):
        shutil.copy(SNAPSHOT, f"{folder}/snapshots/page {number}.json")
    pathlib.Path(folder, "snapshots", f"{BROKEN}.json").write_text("<!DOCTYPE html>", encoding="utf-8")
    one, four = audited(folder, 1), audited(folder, 4)
    note(f"audits by parallel: {one:.0f} snapshots a second with one job, {four:.0f} with four, on a machine with a load of {os.getloadavg()[0]:.0f}")
