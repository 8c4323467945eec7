"""Programs that stand in for the desk, and runs of the command at a terminal."""
from __future__ import annotations

import json
import os
import pathlib
import pty
import shlex
import subprocess
from typing import Any

from .samples import ROOT, SHOP, shop

COMMAND = ROOT / "bin" / "silvervole"


def desk(folder: pathlib.Path, report: str = SHOP, status: int = 1, says: str = "", does: str = "") -> dict[str, str]:
    """The environment of a command that takes a program for the desk which writes this report, says a line and ends so."""
    (folder / "report").write_text(report, encoding="utf-8")
    program = folder / "desk"
    program.write_text(f"#!/bin/sh\ncat {shlex.quote(str(folder / 'report'))}\nprintf %s {shlex.quote(says)} >&2\n{does}\nexit {status}\n", encoding="utf-8")
    program.chmod(0o755)
    return {**plain_environment(), "SILVERVOLE_PROGRAM": str(program)}


def plain_environment() -> dict[str, str]:
    """This environment, in which nothing says how terminals are to be used."""
    return {name: value for name, value in os.environ.items() if name not in ("NO_COLOR", "FORCE_COLOR", "TERM", "SILVERVOLE_PROGRAM")}


def shop_file(folder: pathlib.Path, **given: Any) -> pathlib.Path:
    """The shop's snapshot in a file."""
    path = folder / "shop.json"
    path.write_text(json.dumps(shop(**given)), encoding="utf-8")
    return path


def silvervole(*words: object, env: dict[str, str] | None = None, cwd: pathlib.Path | None = None, stdin: str = "") -> tuple[int, str, str]:
    """The status, standard output and standard error of the command."""
    done = subprocess.run([COMMAND, *map(str, words)], input=stdin, capture_output=True, text=True, check=False, cwd=cwd, env=env or plain_environment())
    return done.returncode, done.stdout, done.stderr


def at_terminal(*words: object, env: dict[str, str], cwd: pathlib.Path | None = None, answers: str = "") -> tuple[int, str]:
    """The status of the command at a terminal, and all that the terminal got."""
    master, terminal = pty.openpty()
    process = subprocess.Popen([COMMAND, *map(str, words)], stdin=terminal, stdout=terminal, stderr=terminal, cwd=cwd, env={"TERM": "xterm-256color", **env})
    os.close(terminal)
    os.write(master, answers.encode("utf-8"))
    got = b""
    while True:
        try:
            more = os.read(master, 65_536)
        except OSError:
            break  # the command closed its end
        if not more:
            break
        got += more
    os.close(master)
    return process.wait(), got.decode("utf-8", "replace")
