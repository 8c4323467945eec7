"""A desk that ends after its number of connections, and the next program on its port and its store: no reply is lost."""
from __future__ import annotations

import contextlib
import os
import pathlib
import shutil
import signal
import sqlite3
import subprocess
import threading
import time

from serving import HOST, PROGRAM, ROOT, free_port

from ..support import expect, same
from .asking import ask, basic, connection, reply_over
from .packages import PROXY, needs
from .proxies import Proxy, wait_for
from .samples import compact, refused

pytestmark = needs(*PROXY, "haproxy")

QUEUE = pathlib.Path(ROOT, "deploy", "haproxy", "act-desk.cfg")
CONNECTIONS, CLIENTS, EACH, KILLS = 60, 8, 30, 6
# For how many seconds a desk that starts late is away.
AWAY = 40
SITES = CLIENTS * EACH // 2


class Restarted:
    """Starts a program over a store again when it ends, as the systemd unit does; each second time it is another file."""

    def __init__(self, port: int, folder: str) -> None:
        self.port, self.store = port, f"{folder}/desk.db"
        self.programs = [PROGRAM, shutil.copy(PROGRAM, f"{folder}/next_desk")]
        self.starts = 0
        self.statuses: list[int] = []
        self.ending = False
        self.thread = threading.Thread(target=self.run)

    def run(self) -> None:
        while not self.ending:
            program = self.programs[self.starts % 2]
            self.starts += 1
            self.desk = subprocess.Popen([program, self.store, "serve", "--port", str(self.port), "--workers", "1",
                                          "--connections", str(CONNECTIONS)], stdin=subprocess.DEVNULL)
            self.statuses.append(self.desk.wait())
            time.sleep(0.1)

    def __enter__(self) -> Restarted:
        self.thread.start()
        return self

    def __exit__(self, *rest: object) -> None:
        self.ending = True
        # A program may be about to start just now, so the one that runs is ended until none is started any more.
        while self.thread.is_alive():
            self.desk.terminate()
            self.thread.join(0.1)


class Queue:
    """HAProxy with the example as it stands, but for ports."""

    def __init__(self, folder: str, desk: int) -> None:
        self.port = free_port()
        text = QUEUE.read_text(encoding="utf-8")
        for old, new in ((f"{HOST}:8079", f"{HOST}:{self.port}"), (f"{HOST}:8080", f"{HOST}:{desk}")):
            text = text.replace(old, new)
        if os.geteuid() != 0:  # only root can become another user
            text = text.replace("    user haproxy\n    group haproxy\n", "")
        self.path = f"{folder}/act-desk.cfg"
        pathlib.Path(self.path).write_text(text, encoding="utf-8")

    def __enter__(self) -> Queue:
        self.haproxy = subprocess.Popen(["haproxy", "-db", "-q", "-f", self.path], stdin=subprocess.DEVNULL)
        wait_for(self.haproxy, self.port, "haproxy")
        return self

    def __exit__(self, *rest: object) -> None:
        self.haproxy.terminate()
        self.haproxy.wait()


def client(proxy: Proxy, name: str, wrong: list[object], by_force: bool) -> None:
    """Puts sites, each twice: the store has them from then on. Where the desk is ended by force, a request may have been
    done that wasn't answered, and then it is sent again."""
    link = connection(proxy)
    try:
        for place in range(EACH):
            site = f"{name}-{place // 2}"
            got = reply_over(link, f"PUT /sites/{site}", b"", basic("ann")).brief
            made, there = (201, compact({"site": site})), (409, refused(12, "SiteExists"))
            if got != (there if place % 2 else made) and (got != there or not by_force):
                wrong.append((place, got))
    except Exception as error:  # a client that breaks off is wrong too
        wrong.append(repr(error))
    finally:
        link.close()


def kept_sites(store: str) -> int:
    """How many sites a store has that no program has any more."""
    with contextlib.closing(sqlite3.connect(store)) as rows:
        return rows.execute("SELECT count(*) FROM sites").fetchone()[0]


def ended_by_force(desk: Restarted, ending: threading.Event) -> None:
    """Ends the program of the moment by force, each second and some times, until it is told to stop."""
    for _ in range(KILLS):
        if ending.wait(1):
            return
        desk.desk.kill()


def served_over(folder: str, by_force: bool) -> Restarted:
    """Eight clients while the desk ends and the next program takes its port."""
    wrong: list[object] = []
    port, ending = free_port(), threading.Event()
    with Restarted(port, folder) as desk, Queue(folder, port) as queue, Proxy("basic.conf", [queue.port]) as proxy:
        clients = [threading.Thread(target=client, args=(proxy, f"client-{number}", wrong, by_force)) for number in range(CLIENTS)]
        force = threading.Thread(target=ended_by_force, args=(desk, ending))
        for one in (*clients, *([force] if by_force else [])):
            one.start()
        for one in clients:
            one.join()
        ending.set()
        if by_force:
            force.join()
    same("replies that are lost, or aren't the desk's", wrong[:3], [])
    same("the sites of the store", kept_sites(desk.store), SITES)
    return desk


def test_reload(folder: str) -> None:
    """No reply is lost while the desk ends by itself."""
    desk = served_over(folder, by_force=False)
    well = desk.statuses.count(0) >= 3 and set(desk.statuses) <= {0, -signal.SIGTERM}
    expect("the desk ended some times by itself, and both programs served", well, desk.statuses)


def test_long_start(folder: str) -> None:
    """A request waits for a desk that takes longer to start than most, as one that audits all its pages anew."""
    port = free_port()
    words = [PROGRAM, f"{folder}/desk.db", "serve", "--port", str(port), "--workers", "1", "--connections", "1000"]
    with Queue(folder, port) as queue, Proxy("basic.conf", [queue.port]) as proxy:
        replies: list[object] = []
        waiting = threading.Thread(target=lambda: replies.append(ask(proxy, "PUT /sites/acme", b"", basic("ann")).brief))
        waiting.start()
        time.sleep(AWAY)
        same("nobody has answered yet", replies, [])
        with subprocess.Popen(words, stdin=subprocess.DEVNULL) as desk:
            waiting.join(60)
            desk.terminate()
    same("the reply", replies, [(201, compact({"site": "acme"}))])


def test_kills(folder: str) -> None:
    """No site that was put is lost while the desk is ended by force."""
    desk = served_over(folder, by_force=True)
    expect("the desk was ended by force some times", desk.statuses.count(-signal.SIGKILL) >= 2, desk.statuses)
