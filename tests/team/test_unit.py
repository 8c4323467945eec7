"""The unit of systemd: systemd's own ratings of it, and its command line."""
from __future__ import annotations

import json
import os
import pathlib
import re
import shutil
import signal
import subprocess
from typing import Any

from serving import PROGRAM, free_port
from stores import edition, set_back

from ..support import expect, note, same
from .packages import needs
from .proxies import wait_for
from .test_restart import QUEUE
from .test_service import UNIT, Kept, asked

pytestmark = needs("systemd")


def test_unit(folder: str) -> None:
    """The unit is one that systemd takes, and how exposed the service is by its own rating."""
    unit = shutil.copy(UNIT, f"{folder}/act-desk@8080.service")
    text = pathlib.Path(unit).read_text(encoding="utf-8").replace("/usr/bin/act_desk", "/bin/true")
    pathlib.Path(unit).write_text(text, encoding="utf-8")
    analyze: dict[str, Any] = {"capture_output": True, "text": True, "env": {**os.environ, "SYSTEMD_COLORS": "0"}}
    verified = subprocess.run(["systemd-analyze", "verify", "--man=no", unit], check=False, **analyze)
    complaints = [line for line in verified.stderr.splitlines() if "act-desk" in line]
    same("what systemd finds wrong with the unit", complaints, [])
    rated = subprocess.run(["systemd-analyze", "security", "--offline=true", "--threshold=15", "--no-pager", unit], check=False, **analyze)
    expect("the service is hardly exposed: 1.5 at the most", rated.returncode == 0, rated.stdout[-400:])
    note(rated.stdout.strip().splitlines()[-1].replace("→ ", ""))


def test_patience() -> None:
    """Nothing ends a service that audits all pages of its store anew before it listens, nor the queue before it for five minutes."""
    text = UNIT.read_text(encoding="utf-8")
    same("how long the unit may take to start", re.findall(r"^(?:Type|TimeoutStartSec|TimeoutSec|RuntimeMaxSec|WatchdogSec)=.*$", text, re.MULTILINE),
         ["TimeoutStartSec=infinity"])
    queue = QUEUE.read_text(encoding="utf-8")
    same("how often the queue tries again, a second apart", re.findall(r"^ *retries (.*)$", queue, re.MULTILINE), ["300"])
    same("how long requests wait", re.findall(r"^ *timeout (client|server|queue) (.*)$", queue, re.MULTILINE),
         [(name, "300s") for name in ("client", "server", "queue")])


def words_of(port: int, **changed: str) -> list[str]:
    """The words of the unit's command line as systemd makes them, where some settings are changed: what stands without braces is none where it is empty."""
    text = UNIT.read_text(encoding="utf-8")
    settings = dict(word.split("=", 1) for line in re.findall(r"^Environment=(.*)$", text, re.MULTILINE) for word in line.split())
    assert changed.keys() <= settings.keys()
    settings |= changed
    made: list[str] = []
    for word in re.findall(r"^ExecStart=/usr/bin/act_desk (.*)$", text, re.MULTILINE)[0].split():
        if name := re.fullmatch(r"\$(\w+)", word):
            made += settings[name[1]].split()
        else:
            made.append(re.sub(r"\$\{(\w+)\}", lambda found: settings[found[1]], word).replace("%i", str(port)))
    return made


def started(folder: str, port: int, **changed: str) -> subprocess.Popen[bytes]:
    """The unit's command line, without systemd, once it listens."""
    desk = subprocess.Popen([PROGRAM, *words_of(port, **changed)], cwd=folder, stdin=subprocess.DEVNULL)
    wait_for(desk, port, "the unit's command")
    return desk


def test_settings() -> None:
    """The book of thirty has no word, that of forty one before the store."""
    thirty = ["desk.db", "serve", "--port", "8080", "--workers", "4", "--connections", "1000000"]
    same("the words by the book of thirty", words_of(8080), thirty)
    same("the words by the book of forty", words_of(8080, ACT_DESK_BOOK="forty"), ["forty", *thirty])


def test_another_book(folder: str) -> None:
    """A store takes either book: after a change of it the unit's command audits all pages anew, and nothing that is kept is lost."""
    port, told = free_port(), []
    for place, (book, number) in enumerate((("", 3_003), ("forty", 4_003), ("", 3_003))):
        desk = started(folder, port, ACT_DESK_BOOK=book)
        if place == 0:
            Kept(port)
        found = json.loads(asked(port, "GET /sites/acme/pages/p1/outcomes")[1])
        told.append((found["rev"], len(found["inapplicable"])))
        desk.terminate()
        desk.wait()
        same("the store's edition", edition(folder), number)
    same("the revision, and the rules without an outcome", told, [(1, 26), (1, 36), (1, 26)])


def test_audited_anew(folder: str) -> None:
    """Over a store of an earlier edition the unit's command audits all pages anew, and then tells what it told before."""
    port = free_port()
    desk = started(folder, port)
    kept = Kept(port)
    told = asked(port, "GET /sites/acme/csv")
    desk.terminate()
    desk.wait()
    set_back(folder, 1)
    desk = started(folder, port)
    same("what is told", asked(port, "GET /sites/acme/csv"), told)
    kept.is_there("all pages were audited anew")
    desk.kill()
    desk.wait()
    same("the store's edition", edition(folder), 3_003)


def test_command(folder: str) -> None:
    """The unit's command line, without systemd: what it keeps outlives stops and kills."""
    port = free_port()
    kept = None
    for end in (signal.SIGTERM, signal.SIGKILL, signal.SIGTERM):
        desk = started(folder, port)
        if kept is None:
            kept = Kept(port)
        else:
            kept.is_there("the end of a program")
        desk.send_signal(end)
        desk.wait()
    same("the files of the store", sorted(os.listdir(folder)), ["desk.db", "desk.db-wal"])
