"""Writes silvervole.toml, with a comment on each setting."""
from __future__ import annotations

import json
from dataclasses import dataclass
from typing import Sequence

# What a format's file is called where nobody says otherwise.
FILES = {"html": "findings.html", "json": "findings.json", "junit": "junit.xml", "sarif": "findings.sarif", "gitlab": "gl-code-quality-report.json",
         "github": "annotations.txt", "markdown": "comment.md", "csv": "findings.csv"}


@dataclass(frozen=True)
class Answers:
    """What a team wants to have checked; each is empty where nothing is said."""

    addresses: tuple[str, ...] = ()
    wait: str = ""
    sign_in: tuple[str, ...] = ()
    budget: str = ""
    formats: tuple[str, ...] = ()


def quoted(text: str) -> str:
    """A text as TOML writes it."""
    return json.dumps(text, ensure_ascii=False)


def setting(key: str, value: str, given: bool) -> str:
    """The line of a setting, which is a comment where it isn't given."""
    return f"{'' if given else '# '}{key} = {value}"


def settings_text(answers: Answers) -> str:
    """The file's text."""
    return "\n".join([*opening(answers), *waiting(answers), *signing_in(answers), *formats(answers), *pages(answers.addresses)])


def opening(answers: Answers) -> list[str]:
    """What stands above all tables."""
    return ["# What `silvervole check` does where the command line doesn't say otherwise.",
            "# Paths are told from the folder of this file. Without # a line counts.", "",
            "# The book of rules: thirty, or forty, which has ten further rules.", setting("book", '"forty"', False),
            "# How many failures don't fail the check.", setting("budget", answers.budget or "0", bool(answers.budget)),
            "# The findings that the team accepts for a while.", setting("accepted", '"accepted.toml"', False),
            "# How many browsers work beside each other.", setting("jobs", "2", False),
            "# Whether what is in frames is checked too, whether shadow trees are, and whether the HTML shows pictures.",
            setting("frames", "true", False), setting("shadow", "false", False), setting("shots", "true", False),
            "# Whether a page that passes a limit is refused rather than cut, and the size of pages.",
            setting("exact", "true", False), setting("viewport", '"1280x900"', False),
            "# A list of pages, an address a line, in place of the tables [[page]] below.", setting("list", '"pages.txt"', False),
            "# The folder that snapshots and reports are kept in, for `silvervole compare`.", setting("out", '"audit"', False), ""]


def waiting(answers: Answers) -> list[str]:
    """The table on waiting."""
    return ["[waiting]", '# "load", "network-idle", or a CSS selector that has to match.', setting("for", quoted(answers.wait or "load"), bool(answers.wait)),
            "# How many seconds a page may take, and how many milliseconds to let pass once it is ready.",
            setting("timeout", "60", False), setting("settle", "0", False), ""]


def signing_in(answers: Answers) -> list[str]:
    """The table on the sign-in."""
    words = ", ".join(map(quoted, answers.sign_in or ("./sign-in.sh",)))
    return ["[sign-in]", "# A command, run once before the pages are collected. It prints lines `cookie NAME=VALUE` and",
            "# `header NAME: VALUE`, with which the pages are asked.", setting("command", f"[{words}]", bool(answers.sign_in)), ""]


def formats(answers: Answers) -> list[str]:
    """The table on formats."""
    return ["[formats]", "# The files that the findings are written to.",
            *(setting(name, quoted(file), name in answers.formats) for name, file in FILES.items()), ""]


def pages(addresses: Sequence[str]) -> list[str]:
    """A table for each page, or one that shows how it is written."""
    head = ["# A page: its address; or its file, and the address to write as the file's. `states` names a file of steps",
            "# after each of which the page is checked again."]
    if not addresses:
        return [*head, "# [[page]]", '# address = "https://www.example.org/"', '# states = "steps.toml"', ""]
    tables = [line for address in addresses for line in ("[[page]]", f"{key_of(address)} = {quoted(address)}", "")]
    return [*head, *tables]


def key_of(page: str) -> str:
    """What a page is written as: an address, or a file."""
    return "address" if page.lower().startswith(("http:", "https:")) else "file"
