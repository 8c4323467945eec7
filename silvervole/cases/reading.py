"""Reads lists of test cases in the form in which the W3C publishes them for ACT rules."""
from __future__ import annotations

import json
import os
import pathlib
import re
import urllib.parse
from dataclasses import dataclass
from typing import Any

from silvervole import __version__
from silvervole.collect.ends import End, Stop
from silvervole.view.files import read

EXPECTED = ("passed", "failed", "inapplicable")
# The members that are needed, all of them texts; others are passed over.
MEMBERS = ("ruleId", "ruleName", "testcaseId", "testcaseTitle", "expected", "url", "relativePath")
FETCH_SECONDS = 60.0


@dataclass(frozen=True)
class Case:
    """A test case: its rule, what is expected of that, the page's address, and its path below the place of the list."""

    id: str
    title: str
    rule: str
    rule_name: str
    expected: str
    address: str
    path: str


def is_address(place: str) -> bool:
    """Whether a place is an address of a server rather than a path."""
    return place.lower().startswith(("http:", "https:"))


def read_cases(data: bytes, path: str) -> tuple[Case, ...]:
    """The cases of a list, all of it or a Stop that says where it is none."""
    def refuse(why: str) -> Stop:
        return Stop(End.INPUT, f"{path} is no list of test cases: {why}")

    try:
        given = json.loads(data)
    except (ValueError, RecursionError):
        raise refuse("it isn't JSON in UTF-8") from None
    cases = given.get("testcases") if isinstance(given, dict) else None
    if not isinstance(cases, list) or not cases:
        raise refuse("it is no object whose testcases are a list of at least one")
    for place, case in enumerate(cases, 1):
        if why := broken(case):
            raise refuse(f"its case {place}: {why}")
    return tuple(Case(case["testcaseId"], case["testcaseTitle"], case["ruleId"], case["ruleName"], case["expected"], case["url"], case["relativePath"])
                 for case in cases)


def broken(case: Any) -> str:
    """Why a member of a list is no case; empty where it is one."""
    if not isinstance(case, dict):
        return "it is no object"
    if lacking := [name for name in MEMBERS if not isinstance(case.get(name), str)]:
        return f"{lacking[0]} is no text"
    if case["expected"] not in EXPECTED:
        return f"expected is none of {', '.join(EXPECTED)}"
    if not re.match(r"https?://", case["url"], re.IGNORECASE):
        return "url is no address of http or https"
    path = pathlib.PurePosixPath(case["relativePath"])
    return "relativePath leads out of its folder" if path.is_absolute() or ".." in path.parts or is_address(str(path)) else ""


def fetch(place: str) -> bytes:
    """The bytes of a list in a file or at an address."""
    if not is_address(place):
        return read(place)
    import http.client  # only here, since they load slowly
    import urllib.request
    try:
        request = urllib.request.Request(place, headers={"User-Agent": f"silvervole/{__version__}"})
        with urllib.request.urlopen(request, timeout=FETCH_SECONDS) as answer:
            return bytes(answer.read())
    except (OSError, ValueError, http.client.HTTPException) as error:
        raise Stop(End.LOAD, f"{place} doesn't load: {error}") from None


def folder_of(place: str) -> str:
    """The folder, or the address, in which a list stands."""
    return urllib.parse.urljoin(place, ".") if is_address(place) else os.path.dirname(place) or os.curdir


def page_of(case: Case, folder: str) -> str:
    """What is opened for a case: a file of the folder, or an address below that of the folder."""
    if is_address(folder):
        return urllib.parse.urljoin(folder if folder.endswith("/") else f"{folder}/", case.path)
    return os.path.join(folder, *pathlib.PurePosixPath(case.path).parts)
