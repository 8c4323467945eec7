"""What the system tells of sockets, processes and open files, as Linux has it in /proc."""
from __future__ import annotations

import contextlib
import os
import pathlib
import pwd
from dataclasses import dataclass
from typing import Iterator

PROC = pathlib.Path("/proc")
ESTABLISHED, LISTEN = "01", "0A"
LOOPBACK = {"0100007F", "00000000", "00000000000000000000000000000000", "0000000000000000FFFF00000100007F"}
UNPRIVILEGED = PROC / "sys" / "net" / "ipv4" / "ip_unprivileged_port_start"
LONGEST_COMMAND = 80


@dataclass(frozen=True)
class Socket:
    """A TCP socket: its own address and port, its state, the user it belongs to, and its number."""

    address: str
    port: int
    state: str
    user: int
    inode: str


def sockets() -> Iterator[Socket]:
    """The TCP sockets of this machine; none where the system doesn't tell."""
    for name in ("tcp", "tcp6"):
        try:
            lines = (PROC / "net" / name).read_text(encoding="ascii").splitlines()[1:]
        except OSError:
            continue
        for line in lines:
            fields = line.split()
            address, _, port = fields[1].partition(":")
            yield Socket(address, int(port, 16), fields[3], int(fields[7]), fields[9])


def listening(port: int) -> Socket | None:
    """The socket that listens at a port of 127.0.0.1; None where there is none."""
    return next((one for one in sockets() if one.state == LISTEN and one.port == port and one.address in LOOPBACK), None)


def listening_ports(process: int) -> list[int]:
    """The ports at which a process listens."""
    own = {target.removeprefix("socket:[").removesuffix("]") for target in open_files(process) if target.startswith("socket:[")}
    return [one.port for one in sockets() if one.state == LISTEN and one.inode in own]


def connections(port: int) -> int:
    """How many connections to a port are open."""
    return sum(one.state == ESTABLISHED and one.port == port for one in sockets())


def open_files(process: int) -> list[str]:
    """What a process has open; nothing where the system doesn't tell."""
    found = []
    try:
        for number in os.listdir(PROC / str(process) / "fd"):
            with contextlib.suppress(FileNotFoundError):  # closed meanwhile
                found.append(os.readlink(PROC / str(process) / "fd" / number))
    except OSError:
        return []
    return found


def processes() -> Iterator[int]:
    """The numbers of all processes."""
    yield from (int(one.name) for one in PROC.iterdir() if one.name.isdigit()) if PROC.is_dir() else ()


def holder_of_socket(socket: Socket) -> str:
    """Who has a socket: the process where the system tells, else the user."""
    target = f"socket:[{socket.inode}]"
    found = next((process for process in processes() if target in open_files(process)), None)
    return described(found) if found is not None else f"a program of the user {user_name(socket.user)}"


def holder_of_file(path: str) -> str:
    """Which other process has a file open; empty where the system doesn't tell."""
    real = os.path.realpath(path)
    found = next((process for process in processes() if process != os.getpid() and real in open_files(process)), None)
    return described(found) if found is not None else ""


def described(process: int) -> str:
    """A process by its number and its command."""
    try:
        words = (PROC / str(process) / "cmdline").read_bytes().decode("utf-8", "replace").split("\0")
    except OSError:
        words = []
    command = " ".join(words).strip()
    shown = command if len(command) <= LONGEST_COMMAND else f"{command[:LONGEST_COMMAND - 1]}\u2026"
    return f"the process {process}" + (f" ({shown})" if shown else "")


def user_name(number: int) -> str:
    """The name of a user, the number where it has none."""
    try:
        return pwd.getpwuid(number).pw_name
    except KeyError:
        return str(number)


def least_free_port() -> int:
    """The least port at which everybody may listen."""
    try:
        return int(UNPRIVILEGED.read_text(encoding="ascii"))
    except (OSError, ValueError):
        return 1024
