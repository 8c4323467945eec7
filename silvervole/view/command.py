"""The command collector/view."""
from __future__ import annotations

import argparse
from dataclasses import replace
from typing import Sequence

from silvervole.collect.ends import End, Stop, run_command, write_out
from silvervole.formats.options import add_format_options, any_format
from silvervole.words import Parser

from .files import read
from .findings import bring_together
from .outcomes import is_object, read_outcomes
from .page import Page, read_page
from .pictures import Picture, read_picture
from .report import Report, read_report
from .rules import read_rules
from .verdicts import Said, read_verdicts

USAGE = "{0} SNAPSHOT REPORT [--shot PICTURE] [--verdicts FILE] [--accepted FILE] [--FORMAT FILE ..]"


def parser(program: str = "view", example: str = "") -> Parser:
    """The words of the command."""
    made = Parser(prog=program, usage=USAGE.format(program), example=example,
                  description="Writes the findings of a report, or of a reply to outcomes, as one HTML file; with options for formats, "
                              "into their files. "
                              "docs/use/collecting.md says more.")
    made.add_argument("snapshot", metavar="SNAPSHOT", help="the page's snapshot, or the desk's reply to the page")
    made.add_argument("report", metavar="REPORT", help="the desk's text report of it, or its reply to outcomes; - is standard input")
    made.add_argument("--shot", metavar="PICTURE", help="the picture that collect --shot wrote with the snapshot")
    made.add_argument("--verdicts", metavar="FILE", help="the desk's reply to verdicts, of the same revision: what people judged, with their notes")
    add_format_options(made)
    return made


def read_findings(path: str) -> Report:
    """What the desk found, by its text report or its reply to `outcomes`, in a file or standard input.

    Which of the two it is, its content says. Where it is neither, that is a Stop with the status INPUT.
    """
    data = read(path)
    return read_outcomes(data, path) if is_object(data) else read_report(data, path)


def write(words: Sequence[str], asked: Parser) -> int:
    """Writes the view that the words ask for."""
    given = asked.parse_args(words)
    snapshot = read(given.snapshot)
    page = read_page(snapshot, given.snapshot)
    report = read_findings(given.report)
    picture = read_picture(given.shot, snapshot) if given.shot is not None else None
    said = read_verdicts(read(given.verdicts), given.verdicts, report) if given.verdicts is not None else None
    if any_format(given):
        write_files(given, asked.prog, page, report, picture, said)
        return End.WRITTEN
    findings = replace(bring_together(report, page, read_rules(), picture), notes=said or {})
    from .writing import write_view  # only here Jinja2 is needed
    write_out(write_view(findings, picture).encode("utf-8"))
    return End.WRITTEN


def write_files(given: argparse.Namespace, program: str, page: Page, report: Report, picture: Picture | None, said: Said | None) -> None:
    """Writes the files of the formats that the words name."""
    from silvervole.formats.gathering import about_page, listed_page  # only here, since they load slowly
    from silvervole.formats.listing import Listing
    from silvervole.formats.writing import accept, write_formats
    table = read_rules()
    listed = listed_page(about_page(page, report, snapshot=given.snapshot), page, report, table, picture, said)
    write_formats(accept(Listing((listed,), said=said is not None), given, table, program), given)


def main(words: Sequence[str], program: str = "view", example: str = "") -> int:
    """The status of a run."""
    return run_command(program, lambda: write(words, parser(program, example)))
