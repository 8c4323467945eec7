"""The options that write formats and read accepted findings, for each command that has findings."""
from __future__ import annotations

import argparse

# Each format by the name of its option, and what that writes.
HELP = {"html": "one HTML file that stands alone; of many pages a list of them, and each beside it",
        "json": "JSON, with all that the HTML has", "junit": "JUnit XML", "sarif": "SARIF 2.1.0, for code scanning",
        "gitlab": "GitLab's Code Quality report", "github": "GitHub's annotations, which a step prints",
        "markdown": "Markdown for a comment in a pull request, at most 60 kB", "csv": "CSV for a spreadsheet"}
FORMATS = tuple(HELP)


def add_format_options(parser: argparse.ArgumentParser) -> None:
    """Adds an option for each format, and --accepted."""
    group = parser.add_argument_group("formats")
    for name, text in HELP.items():
        group.add_argument(f"--{name}", metavar="FILE", help=f"writes the findings as {text}")
    group.add_argument("--accepted", metavar="FILE", help="the findings that the team accepts for a while, in TOML")


def any_format(options: argparse.Namespace) -> bool:
    """Whether the words of a command ask for a format, or for accepted findings."""
    return options.accepted is not None or any(getattr(options, name) is not None for name in FORMATS)
