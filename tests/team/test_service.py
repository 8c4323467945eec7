"""The service under a real systemd, in a container that has this machine's /usr and folders of its own."""
from __future__ import annotations

import os
import pathlib
import re
import shutil
import socket
import subprocess
import time
from typing import Callable

import pytest

from serving import HOST, PROGRAM, ROOT, free_port, reply_in, request

from ..support import expect, note, same
from .packages import needs
from .proxies import wait_for
from .samples import PAGE, compact, refused, stored

pytestmark = needs("systemd", "systemd-container")

UNIT = pathlib.Path(ROOT, "deploy", "systemd", "act-desk@.service")
USER_LINKS = ("bin", "sbin", "lib", "lib64")
FOLDERS = ("etc/systemd/system", "usr", "var/lib", "run", "tmp", "root", "proc", "sys", "dev")
SECONDS = 60


class NoMachine(Exception):
    """No systemd can be booted here."""


class Machine:
    """A machine of its own for systemd, whose folders outlive it; it shares this machine's /usr, to which the program is
    added, and its network. It boots with the desk as it would be enabled."""

    def __init__(self, folder: str, port: int) -> None:
        self.root, self.added, self.port = f"{folder}/root", f"{folder}/usr", port
        self.unit = f"act-desk@{port}.service"
        for name in FOLDERS:
            os.makedirs(f"{self.root}/{name}")
        for name in USER_LINKS:
            os.symlink(f"usr/{name}", f"{self.root}/{name}")
        os.makedirs(f"{self.added}/bin")
        shutil.copy(PROGRAM, f"{self.added}/bin/act_desk")
        shutil.copy(UNIT, f"{self.root}/etc/systemd/system/act-desk@.service")
        for name, text in (("os-release", "ID=debian\n"), ("machine-id", "0" * 31 + "1\n"), ("group", "root:x:0:\n"),
                           ("passwd", "root:x:0:0:root:/root:/bin/sh\n")):
            pathlib.Path(self.root, "etc", name).write_text(text, encoding="utf-8")

    def __enter__(self) -> Machine:
        words = ["systemd-nspawn", "--quiet", f"--directory={self.root}", f"--overlay-ro=/usr:{self.added}:/usr", "--register=no",
                 "--resolv-conf=off", "--timezone=off", f"--machine=act-desk-{self.port}", "--boot"]
        if not os.path.isdir("/run/systemd/system"):  # no systemd here that could be asked for a scope
            words.append("--keep-unit")
        self.container = subprocess.Popen([*words, f"systemd.unit={self.unit}"], stdin=subprocess.DEVNULL,
                                          stdout=subprocess.DEVNULL, stderr=subprocess.DEVNULL)
        if not comes(lambda: self.container.poll() is not None or self.run("systemctl", "is-system-running") != ""):
            self.container.kill()
        if self.container.poll() is not None:
            raise NoMachine(f"systemd-nspawn ended with {self.container.wait()}")
        wait_for(self.container, self.port, "the service")
        return self

    def __exit__(self, *rest: object) -> None:
        self.container.terminate()
        self.container.wait()

    def run(self, *words: str) -> str:
        """What a command prints that is run within the machine."""
        with open(f"/proc/{self.container.pid}/task/{self.container.pid}/children", encoding="ascii") as children:
            leader = children.read().split()[:1]
        if not leader:
            return ""
        return subprocess.run(["nsenter", "--target", *leader, "--all", *words], capture_output=True, text=True, check=False,
                              stdin=subprocess.DEVNULL).stdout.strip()

    def shown(self, name: str) -> str:
        """A property of the service."""
        return self.run("systemctl", "show", "--value", f"--property={name}", self.unit)


def asked(port: int, line: str, body: bytes = b"", rev: int | None = None) -> tuple[int, str]:
    """The status and body of the reply of a desk, which may be away for a moment."""
    end = time.monotonic() + SECONDS
    while time.monotonic() < end:
        try:
            with socket.create_connection((HOST, port), timeout=SECONDS) as link:
                link.sendall(request(line, body=body, rev=rev))
                head, _, said = reply_in(link).partition(b"\r\n\r\n")
            if head:
                return int(head.split()[1]), said.decode()
        except ConnectionError:
            pass
        time.sleep(0.02)
    raise RuntimeError(f"nobody answers {line}")


def comes(holds: Callable[[], bool]) -> bool:
    """Whether something holds within a minute."""
    end = time.monotonic() + SECONDS
    while not holds():
        if time.monotonic() > end:
            return False
        time.sleep(0.05)
    return True


class Kept:
    """A site that a desk is to keep over its ends: each time one page more, of the next revision."""

    def __init__(self, port: int) -> None:
        self.port, self.pages = port, 0
        same("a site is put", asked(port, "PUT /sites/acme"), (201, compact({"site": "acme"})))
        self.put()

    def put(self) -> None:
        self.pages += 1
        same("a page is put", asked(self.port, f"PUT /sites/acme/pages/p{self.pages}", compact(PAGE).encode(), 0),
             (200, stored(f"p{self.pages}", self.pages)))

    def is_there(self, after: str) -> None:
        """Expects all of it to be there, and puts one more page."""
        same(f"the site after {after}", asked(self.port, "PUT /sites/acme"), (409, refused(12, "SiteExists")))
        _, report = asked(self.port, "GET /sites/acme/report")
        pages = re.findall(r"^page (\S+) rev (\d+) ", report, re.MULTILINE)
        same(f"the pages after {after}", pages, [(f"p{number}", str(number)) for number in range(1, self.pages + 1)])
        self.put()


def restarted(machine: Machine, kept: Kept) -> None:
    """The store outlives a restart, a kill and a stop of the service; it is a file of the service's user alone."""
    before = machine.shown("MainPID")
    machine.run("systemctl", "restart", machine.unit)
    kept.is_there("a restart")
    expect("it is another program", machine.shown("MainPID") != before, before)
    machine.run("systemctl", "kill", "--signal=KILL", machine.unit)
    kept.is_there("a kill")
    machine.run("systemctl", "stop", machine.unit)
    state = pathlib.Path(machine.root, "var", "lib", "private", "act-desk", str(machine.port))
    same("the files of the store", sorted(path.name for path in state.iterdir()), ["desk.db", "desk.db-wal"])
    same("who may read it", [oct(path.stat().st_mode & 0o777) for path in (state, state / "desk.db")], ["0o700", "0o600"])
    machine.run("systemctl", "start", machine.unit)
    kept.is_there("a stop and a start")


def in_use(machine: Machine, kept: Kept) -> None:
    """A service that finds its store in use tries again until it is free."""
    machine.run("systemctl", "stop", machine.unit)
    port = free_port()
    folder = f"/var/lib/act-desk/{machine.port}"
    other = f"cd {folder} && exec act_desk desk.db serve --port {port} --workers 1 --connections 1"
    machine.run("systemd-run", "--quiet", "--unit=other", "sh", "-c", other)
    if not comes(lambda: machine.run("systemctl", "is-active", "other") == "active" and listens(machine, port)):
        expect("another program has the store", False)
    machine.run("systemctl", "start", machine.unit)
    expect("it is tried again while the store is in use", comes(lambda: int(machine.shown("NRestarts") or 0) >= 2), machine.shown("NRestarts"))
    expect("it ended with the status of a store fault", comes(lambda: machine.shown("ExecMainStatus") == "6"), machine.shown("ExecMainStatus"))
    asked(port, "GET /sites/acme/report")
    kept.is_there("another program had the store")


def listens(machine: Machine, port: int) -> bool:
    """Whether a program within the machine listens at a port. It isn't connected to, since that would be served."""
    return f"{HOST}:{port} " in machine.run("ss", "--listening", "--tcp", "--numeric")


def lives(machine: Machine) -> None:
    """What the service keeps outlives restarts, kills, and the machine itself."""
    with machine:
        kept = Kept(machine.port)
        restarted(machine, kept)
        in_use(machine, kept)
        rated = machine.run("systemd-analyze", "security", "--no-pager", machine.unit)
        level = re.search(r"exposure level for \S+: (\d+\.\d+)", rated)
        expect("the service is hardly exposed while it runs", level is not None and float(level[1]) <= 1.5, rated[-200:])
        note(f"exposure level while it runs: {level[1] if level else 'unknown'}")
    with machine:
        kept.is_there("the machine was off")


def test_service(folder: str) -> None:
    """The unit as it stands, in a real systemd."""
    if os.geteuid() != 0:
        pytest.skip("only root can boot a machine of its own")
    try:
        lives(Machine(folder, free_port()))
    except NoMachine as error:
        pytest.skip(f"no machine of its own can be booted here: {error}")
