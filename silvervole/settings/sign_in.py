"""Signs in by a command of the team's own, which prints the cookies and headers that pages are asked with."""
from __future__ import annotations

import argparse
import subprocess
from dataclasses import dataclass
from typing import Callable

from silvervole.collect.ends import End, Stop
from silvervole.collect.options import cookie, header

SECONDS = 60
FORM = "each line that it prints is `cookie NAME=VALUE` or `header NAME: VALUE`"


@dataclass(frozen=True)
class Signed:
    """What pages are asked with."""

    cookies: tuple[tuple[str, str], ...] = ()
    headers: tuple[tuple[str, str], ...] = ()


@dataclass(frozen=True)
class SignIn:
    """A command, and the folder that it is run in."""

    command: list[str]
    folder: str | None

    def run(self) -> Signed:
        """What the command prints; a Stop with the status SIGN_IN where it fails."""
        return signed(self.command, self.folder)


def signed(command: list[str], folder: str | None) -> Signed:
    """What the command prints, run in the folder. No line of it stands in a Stop, since it may hold a secret."""
    def refuse(why: str) -> Stop:
        return Stop(End.SIGN_IN, f"the sign-in by {command[0]} failed: {why}")

    try:
        done = subprocess.run(command, cwd=folder, stdin=subprocess.DEVNULL, stdout=subprocess.PIPE, timeout=SECONDS, check=False)
        lines = done.stdout.decode("utf-8").splitlines()
    except OSError as error:
        raise refuse(error.strerror or "it can't be started") from None
    except subprocess.TimeoutExpired:
        raise refuse(f"it took more than {SECONDS} seconds") from None
    except UnicodeDecodeError:
        raise refuse("what it prints isn't in UTF-8") from None
    if done.returncode != 0:
        raise refuse(f"it ended with status {done.returncode}")
    return read_lines([line for line in lines if line.strip()], refuse)


def read_lines(lines: list[str], refuse: Callable[[str], Stop]) -> Signed:
    """The cookies and headers of these lines."""
    cookies, headers = [], []
    for place, line in enumerate(lines, 1):
        kind, _, value = line.strip().partition(" ")
        try:
            if kind == "cookie":
                cookies.append(cookie(value.strip()))
            elif kind == "header":
                headers.append(header(value.strip()))
            else:
                raise argparse.ArgumentTypeError(FORM)
        except argparse.ArgumentTypeError as error:
            raise refuse(f"its line {place}: {error}") from None
    if not lines:
        raise refuse(f"it prints nothing; {FORM}")
    return Signed(tuple(cookies), tuple(headers))
