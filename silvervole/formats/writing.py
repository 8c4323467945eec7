"""Writes the formats that the words of a command name, and reads the findings that the team accepts."""
from __future__ import annotations

import argparse
import datetime
from typing import Callable, Mapping

from silvervole.accepted.matching import with_accepted
from silvervole.accepted.reading import read_accepted
from silvervole.collect.ends import say, write_file
from silvervole.view.rules import RuleTable

from .findings_json import write_json
from .github import write_github
from .gitlab import write_gitlab
from .html_files import html_files
from .junit import write_junit
from .listing import Listing
from .markdown import write_markdown
from .sarif import write_sarif
from .table import write_csv
from .words import unmatched_line

# The formats of one file each, by the names of their options; beside them stands --html.
WRITERS: Mapping[str, Callable[[Listing], bytes]] = {
    "json": write_json, "junit": write_junit, "sarif": write_sarif, "gitlab": write_gitlab, "github": write_github,
    "markdown": write_markdown, "csv": write_csv}


def accept(listing: Listing, options: argparse.Namespace, table: RuleTable, program: str) -> Listing:
    """The list with what the file of --accepted accepts today; each acceptance that matches nothing is a line on standard error."""
    if options.accepted is None:
        return listing
    made = with_accepted(listing, read_accepted(options.accepted, table, datetime.date.today()))
    for acceptance in made.unmatched:
        say(program, f"{options.accepted}: {unmatched_line(acceptance)}")
    return made


def write_formats(listing: Listing, options: argparse.Namespace) -> None:
    """Writes the file of each format that the words of a command name; a Stop with the status OUTPUT where one can't be written."""
    for name, writer in WRITERS.items():
        if (path := getattr(options, name)) is not None:
            write_file(path, writer(listing))
    if options.html is not None:
        for path, data in html_files(listing, options.html):
            write_file(path, data)
