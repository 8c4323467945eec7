"""What a client knows of its own site, and how the desk's answers differ from it."""
from __future__ import annotations

import csv
import functools
import io
import json
import re
import subprocess
from dataclasses import dataclass, field
from typing import Any

from serving import PROGRAM
from soaking.ways import Direct, Proxied

Snapshot = dict[str, Any]
LINE = re.compile(r"^page (\S+) rev (\d+) ", re.MULTILINE)
AUDITED = re.compile(r"^(\w{6}) node (\d+) (\w+) (\S+)$")
COMPOSITE = "cf77f2"  # nobody judges it: it merges the outcomes of its inputs
INPUTS = ("047fe0", "b40fd1", "ye5d6e", "3e12e1")


def compact(value: object) -> bytes:
    return json.dumps(value, sort_keys=True, separators=(",", ":"), ensure_ascii=False).encode()


@functools.lru_cache(maxsize=4_096)
def audited(sent: bytes) -> tuple[tuple[str, ...], ...]:
    """The rule, node, outcome and reason of each outcome by `act_desk - audit`."""
    ran = subprocess.run([PROGRAM, "-", "audit"], input=sent, capture_output=True, timeout=600, check=False)
    if ran.returncode not in (0, 1):
        return (("audit", str(ran.returncode), ran.stderr.decode(), ""),)
    return tuple(found.groups() for found in map(AUDITED.match, ran.stdout.decode().splitlines()) if found)


@dataclass
class Page:
    """A page with its revision and its judgements: rule, node, verdict, hand and digest."""

    rev: int
    snapshot: Snapshot
    judgements: list[tuple[str, int, str, str, str]] = field(default_factory=list)

    def final(self, row: dict[str, Any], rows: list[dict[str, Any]]) -> tuple[str, str]:
        """The final outcome of a row of the page and who judged it: the last judgement of just this evidence counts."""
        if row["rule"] == COMPOSITE:
            found = {self.final(one, rows)[0] for one in rows if one["rule"] in INPUTS and one["node"] == row["node"]}
            return next(outcome for outcome in ("passed", "cantTell", "failed") if outcome in found), ""
        for rule, node, verdict, hand, digest in reversed(self.judgements):
            if row["automatic"] == "cantTell" and (rule, node, digest) == (row["rule"], row["node"], row["digest"]):
                return verdict, hand
        return row["automatic"], ""


@dataclass
class Site:
    """A site whose only client this is: its name, its counter and its pages."""

    name: str
    is_there: bool = False
    has_judge: bool = False
    counter: int = 0
    pages: dict[str, Page] = field(default_factory=dict)

    def path(self, page: str = "", end: str = "") -> str:
        return f"/sites/{self.name}" + (f"/pages/{page}" if page else "") + end


def answer(way: Direct | Proxied, line: str) -> bytes | str:
    """The body of an accepted request; a text that says what came in its place."""
    reply = way.ask(line)
    if reply is None:
        return "no reply"
    return reply[1] if reply[0] == 200 else f"{reply[0]} {reply[1][:100]!r}"


def page_differs(way: Direct | Proxied, site: Site, name: str) -> str:
    """How a page differs from what is known of it: its revision, its snapshot and its outcomes; nothing where it doesn't."""
    page = site.pages[name]
    said, told = (answer(way, f"GET {site.path(name, end)}") for end in ("", "/outcomes"))
    if isinstance(said, str):
        return f"{name}: {said}"
    if isinstance(told, str):
        return f"{name}: {told}"
    if json.loads(said) != {"rev": page.rev, "snapshot": page.snapshot}:
        return f"{name}: not revision {page.rev} as it was sent: {said[:200]!r}"
    rows = json.loads(told)
    found = tuple((row["rule"], str(row["node"]), row["automatic"], row["reason"]) for row in rows["outcomes"])
    shown = compact(json.loads(said)["snapshot"])
    if rows["rev"] != page.rev or found != audited(shown):
        return f"{name}: its outcomes aren't those of an audit of its snapshot"
    known = [(row, page.final(row, rows["outcomes"])) for row in rows["outcomes"]]
    wrong = [(row, final) for row, final in known if (row["outcome"], row["by"]) != final]
    return f"{name}: {wrong[0][0]}, not {wrong[0][1]}" if wrong else ""


def site_differs(way: Direct | Proxied, site: Site) -> str:
    """How a site differs from what is known of it; nothing where it doesn't."""
    told = answer(way, f"GET {site.path(end='/report')}")
    if not site.is_there:
        return "" if isinstance(told, str) and told.startswith("404") else f"{site.name} isn't put, but {told[:60]!r}"
    if isinstance(told, str):
        return f"{site.name}: {told}"
    found = {name: int(rev) for name, rev in LINE.findall(told.decode())}
    wanted = {name: page.rev for name, page in site.pages.items()}
    if found != wanted:
        return f"{site.name}: {found}, not {wanted}"
    return next(filter(None, (page_differs(way, site, name) for name in site.pages)), "")


def shows_others(way: Direct | Proxied, site: Site) -> str:
    """Whether a report of a site shows anything that isn't its own."""
    told, linked = (answer(way, f"GET {site.path(end=end)}") for end in ("/csv", "/earl"))
    if isinstance(told, str):
        return f"{site.name}: {told}"
    if isinstance(linked, str):
        return f"{site.name}: {linked}"
    rows = list(csv.DictReader(io.StringIO(told.decode())))
    subjects = {one["earl:subject"]["@id"] for one in json.loads(linked)["@graph"]}
    strange = [row for row in rows if row["site"] != site.name or row["page"] not in site.pages]
    strange += [one for one in subjects if not one.startswith(f"https://{site.name}.example/")]
    return f"{site.name} shows {strange[0]}" if strange else ""
