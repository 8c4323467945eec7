"""Asks a person whether the evidence that is shown is what was judged, where the file has no digest of it."""
from __future__ import annotations

import dataclasses
import sys
from typing import Iterable, Sequence

from silvervole.collect.ends import End, Stop, one_line
from silvervole.view.page import start_tag

from .mapping import Skipped
from .taking import Fate, Taken
from .telling import Teller

QUESTION = "Is this what was judged? [y, n, a: all from here on, q: none from here on] "
NOT_CONFIRMED = "its evidence wasn't confirmed"


def is_open(one: Taken | Skipped) -> bool:
    """Whether a claim would be added, and nothing tells that its evidence was seen."""
    return isinstance(one, Taken) and one.fate is Fate.ADDED and not one.claim.digest


def need_terminal(count: int) -> None:
    """Refuses to ask where nobody would answer."""
    if sys.stdin is None or sys.stderr is None or not (sys.stdin.isatty() and sys.stderr.isatty()):
        what = "1 judgement without a digest of its evidence" if count == 1 else f"{count} judgements without a digest of their evidence"
        raise Stop(End.USAGE, f"{what}: confirm it at a terminal, with the EARL in a file, or say by --as-of REV that they were made on that revision")


def confirmed(taken: Sequence[Taken | Skipped], teller: Teller) -> list[Taken | Skipped]:
    """All of them, without what a person doesn't confirm."""
    count = sum(map(is_open, taken))
    if not count:
        return list(taken)
    need_terminal(count)
    made: list[Taken | Skipped] = []
    asked, rest = 0, ""
    for one in taken:
        if isinstance(one, Taken) and is_open(one):
            asked += 1
            answer = rest or ask(shown(one, teller, f"{asked} of {count}"))
            rest = answer if answer in ("a", "q") else ""
            one = one if answer in ("y", "a") else dataclasses.replace(one, fate=Fate.SKIPPED, why=NOT_CONFIRMED)
        made.append(one)
    return made


def shown(one: Taken, teller: Teller, place: str) -> list[str]:
    """What a person looks at: the judgement, the element, its evidence and the note."""
    evidence = one.finding.evidence or "" if one.finding is not None else ""
    tag = start_tag(teller.page.nodes[one.claim.node].element)
    return [f"{place}: {teller.about(one)}", f"  element: {tag}", *parts("evidence", evidence.split("\n")),
            *parts("note", one.claim.note.split("\n") if one.claim.note else [])]


def parts(name: str, lines: Iterable[str]) -> list[str]:
    """The lines of a text, the first behind its name."""
    return [f"  {name if not place else '':{len(name)}}{':' if not place else ' '} {line}" for place, line in enumerate(lines)]


def ask(lines: Sequence[str]) -> str:
    """The first letter of an answer; where there is none any more, that nothing more is to be asked."""
    sys.stderr.write("".join(f"{safe(line)}\n" for line in lines))
    while True:
        sys.stderr.write(QUESTION)
        sys.stderr.flush()
        line = sys.stdin.readline()
        if not line:
            return "q"
        if (answer := line.strip().lower()[:1]) in ("y", "n", "a", "q") and answer:
            return answer


def safe(line: str) -> str:
    """A line with its indent, and control characters spelt out."""
    return " " * (len(line) - len(line.lstrip(" "))) + one_line(line)
