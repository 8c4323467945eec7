"""Writes findings as one HTML file, by a Jinja2 template that escapes each text of the page."""
from __future__ import annotations

import pathlib
import re
from typing import Sequence

from silvervole.collect.ends import End, Stop

from .counting import FRAME
from .findings import Findings
from .page import shortened
from .pictures import Picture
from .report import OUTCOMES

HERE = pathlib.Path(__file__).resolve().parent
HEADINGS = {"failed": "Failed", "cantTell": "For a person to judge", "passed": "Passed"}
WORDS = {"failed": "failed", "cantTell": "to judge", "passed": "passed", "accepted": "accepted"}


# Marks that turn the direction of what follows, and characters that show nothing.
UNSEEN = re.compile("[\x00-\x08\x0b\x0e-\x1f\x7f-\x9f\xad\u061c\u200b\u200e\u200f\u2028-\u202e\u2060-\u2069\ufeff\ud800-\udfff]")


def visible(text: str) -> str:
    """The text with each unseen character spelt out by its number.

    A page's texts are taken from whoever wrote the page, and must not change what stands around them.
    """
    return UNSEEN.sub(lambda found: f"\u27e8U+{ord(found.group()):04X}\u27e9", text)


def write_view(findings: Findings, picture: Picture | None) -> str:
    """The HTML file's text."""
    return rendered("findings.html", picture.data if picture else "", page=findings, headings=HEADINGS, frame=FRAME)


def write_list(views: Sequence[tuple[str, Findings]], unmatched: Sequence[str], lost: Sequence[str]) -> str:
    """The text of the HTML file that leads to the views of many pages, each by the name of its file; lines on pages without one."""
    return rendered("list.html", "", views=views, unmatched=unmatched, lost=lost)


def rendered(name: str, picture: str, **values: object) -> str:
    """The text of a template, with a picture in Base64; a Stop with the status BROWSER where Jinja2 isn't there."""
    try:
        import jinja2
        from markupsafe import Markup
    except ImportError:
        raise Stop(End.BROWSER, "Python's jinja2 isn't there (on Debian: apt-get install python3-jinja2)") from None
    environment = jinja2.Environment(
        loader=jinja2.FileSystemLoader(HERE), autoescape=True, undefined=jinja2.StrictUndefined,
        trim_blocks=True, lstrip_blocks=True, finalize=lambda value: visible(value) if type(value) is str else value)
    # Base64 holds nothing to escape, and may be long.
    return environment.get_template(name).render(
        picture=Markup(picture), outcomes=OUTCOMES, words=WORDS, shortened=shortened, **values) + "\n"
