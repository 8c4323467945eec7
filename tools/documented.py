"""The requests and replies of docs/use/http.md: for tools/walk and tools/test-api."""
from __future__ import annotations

import argparse
import os
import re
import shlex

from serving import ROOT

PAGE = os.path.join(ROOT, "docs", "use", "http.md")
PORT = "8080"  # of the page
FENCE = re.compile(r"^```(sh|http)\n(.*?)^```$", re.MULTILINE | re.DOTALL)


def blocks(page: str) -> list[tuple[str, str]]:
    """The code of the page: its language, and the text."""
    return [(found.group(1), found.group(2)) for found in FENCE.finditer(page)]


def on_wire(text: str) -> bytes:
    """A message of the page as it goes over the wire: lines of the head end with CR LF, the body with its
    last character."""
    head, _, body = text.partition("\n\n")
    return (head.replace("\n", "\r\n") + "\r\n\r\n" + body.removesuffix("\n")).encode()


def is_reply(text: str) -> bool:
    """Whether a message of the page is a reply."""
    return text.startswith("HTTP/1.1 ")


def curl_message(line: str) -> bytes:
    """The message that a curl line of the page sends, but for the fields that are curl's own."""
    parser = argparse.ArgumentParser()
    parser.add_argument("-i", action="store_true")
    parser.add_argument("-X", dest="method")
    parser.add_argument("-H", dest="fields", action="append", default=[])
    parser.add_argument("-d", dest="body")
    parser.add_argument("--data-binary", dest="file")
    parser.add_argument("address")
    words = parser.parse_args(shlex.split(line)[1:])
    body = None if words.body is None else words.body.encode()
    if words.file is not None:
        with open(os.path.join(ROOT, words.file.removeprefix("@")), "rb") as file:
            body = file.read()
    method = words.method or ("GET" if body is None else "POST")
    lines = [f"{method} {words.address.partition(f':{PORT}')[2]} HTTP/1.1", *words.fields,
             *([] if body is None else [f"content-length: {len(body)}"])]
    return ("\r\n".join(lines) + "\r\n\r\n").encode() + (body or b"")


def steps(page: str) -> tuple[list[str], list[tuple[str | bytes, bytes]]]:
    """The words that start the program, and each request with its reply: a curl line, or the bytes to send."""
    start: list[str] = []
    asked: str | bytes = b""
    found: list[tuple[str | bytes, bytes]] = []
    for language, text in blocks(page):
        if language == "sh" and " - serve " in text:
            start = shlex.split(text)[1:]
        elif language == "sh" and text.startswith("curl "):
            asked = text.strip()
        elif language == "http" and is_reply(text):
            found.append((asked, on_wire(text)))
        elif language == "http":
            asked = on_wire(text)
    return start, found
