"""Processes below another, and whether they are still there."""
from __future__ import annotations

import pathlib


def children(number: int) -> list[int]:
    """The numbers of all processes below one."""
    found = []
    for task in pathlib.Path("/proc", str(number), "task").glob("*/children"):
        for child in map(int, task.read_text().split()):
            found += [child, *children(child)]
    return found


def is_alive(number: int) -> bool:
    """Whether a process is there, and hasn't ended."""
    try:
        return pathlib.Path(f"/proc/{number}/stat").read_text().rpartition(")")[2].split()[0] != "Z"
    except OSError:
        return False
