"""Rows, numbers, tags and attributes, and the limits of the form."""
from __future__ import annotations

import json
import os
from typing import Any

from silvervole.collect.ends import End, Stop
from silvervole.collect.taking import take

from ..support import SOURCE, collect_here, expect, open_file, page, refused_here, same, take_rows, well_formed
from .test_letters import letters_by_name


def test_rows(browser: Any) -> None:
    """Rows, numbers, spaces, tags and attributes."""
    with page("<P ID=a Class='b c'>one<br>two</P><!-- c --><svg viewBox='0 0 1 1'><foreignObject><i>z</i></foreignObject></svg><math><mi>q</mi></math>") as path:
        open_file(browser, path)
        browser.execute_script("""
            const a = document.getElementById('a');
            a.append('', '\\ud83d\\ude00 \\ud800');
            a.setAttribute('data-half', '\\udc00');
            const use = document.createElementNS('http://www.w3.org/2000/svg', 'use');
            use.setAttributeNS('http://www.w3.org/1999/xlink', 'xlink:href', '#x');
            document.querySelector('svg').append(use);
            document.body.append(document.createElementNS('urn:x', 'p:Strange'));""")
        text, rows = take_rows(browser)
        # The driver itself fails where toJSON stays, so the page gives it back.
        with_own_json = browser.execute_script("Array.prototype.toJSON = Object.prototype.toJSON = () => 'wrong';"
            f"try {{ return ({SOURCE})(arguments[0]); }}"
            "finally { delete Array.prototype.toJSON; delete Object.prototype.toJSON; }", "https://facts.example/")
        expect("a page's own toJSON changes nothing", with_own_json == text)
        got = [(row["n"], row["p"], row["tag"] and row["ns"], row["tag"] or row["text"] or "", row["attrs"]) for row in rows]
        same("rows, numbers, spaces, tags and attributes", got, [
            (1, None, "html", "html", []), (2, 1, "html", "head", []), (3, 1, "html", "body", []),
            (4, 3, "html", "p", [["id", "a"], ["class", "b c"], ["data-half", "\ufffd"]]),
            (5, 4, None, "one", []), (6, 4, "html", "br", []), (7, 4, None, "two", []),
            (8, 4, None, "", []), (9, 4, None, "\U0001f600 \ufffd", []),
            (10, 3, "svg", "svg", [["viewBox", "0 0 1 1"]]), (11, 10, "svg", "foreignObject", []),
            (12, 11, "html", "i", []), (13, 12, None, "z", []), (14, 10, "svg", "use", [["xlink:href", "#x"]]),
            (15, 3, "other", "math", []), (16, 15, "other", "mi", []), (17, 16, None, "q", []),
            (18, 3, "other", "Strange", [])])
        lines = text.split("\n")
        expect("the row of node n stands on line n + 1",
               all(json.loads(lines[row["n"]].rstrip(","))["n"] == row["n"] for row in rows))
    with page("<meta http-equiv=Content-Security-Policy content=\"default-src 'none'\"><p>x</p>") as path:
        open_file(browser, path)
        same("a page whose policy allows no script", len(take_rows(browser)[1]), 6)
    named = "".join(f"<input name={name}>" for name in (
        "attributes childNodes firstChild nextSibling parentElement nodeType localName namespaceURI tagName focus blur "
        "checkVisibility closest getAttribute hasAttribute shadowRoot assignedSlot getRootNode tabIndex").split())
    images = "".join(f"<img alt='' name={name}>" for name in (
        "documentElement body activeElement querySelectorAll createRange URL location").split())
    with page(f"<form id=form tabindex=0>{named}</form>{images}") as path:
        open_file(browser, path)
        rows = take_rows(browser)[1]
        same("names of controls and images hide nothing", (len(rows), letters_by_name(rows)["form"]),
             (4 + named.count("<") + images.count("<"), "rvft"))
    with page(whole="<?xml version='1.0'?><svg xmlns='http://www.w3.org/2000/svg'><title>t</title><![CDATA[c]]><?pi x?></svg>") as path:
        as_svg = path[:-len("html")] + "svg"
        os.rename(path, as_svg)
        try:
            open_file(browser, as_svg)
            same("a document of SVG", [(row["ns"], row["tag"], row["text"]) for row in take_rows(browser)[1]],
                 [("svg", "svg", None), ("svg", "title", None), ("html", None, "t"), ("html", None, "c")])
        finally:
            os.rename(as_svg, path)


def test_limits(browser: Any) -> None:
    """Each limit of the form, and one above it."""
    def accepts(what: str, body: str, nodes: int) -> None:
        with page(body) as path:
            try:
                collected = collect_here(browser, path, "--url", "https://limits.example/")
                expect(f"{what} is accepted", collected.notes == (), collected.notes)
                same(f"{what}: its nodes", len(well_formed(f"{what} is well formed", collected.text.encode("utf-8"))), nodes)
            except Stop as stop:
                expect(f"{what} is accepted", False, stop.line)

    def refuses(what: str, body: str, says: str) -> None:
        with page(body) as path:
            refused_here(browser, f"{what} is refused", End.LIMIT, says, path, "--url", "https://limits.example/")

    # html, head and body are three nodes, and the first two depths.
    accepts("a page of 10,000 nodes", "<i></i>" * 9997, 10000)
    refuses("a page of 10,001 nodes", "<i></i>" * 9998, "more than 10,000 nodes")
    accepts("a page of depth 128", "<div>" * 126, 129)
    refuses("a page of depth 129", "<div>" * 127, "depth 129")
    refuses("a text at depth 129", "<div>" * 126 + "x", "depth 129")
    accepts("an element of 64 attributes", "<p " + " ".join(f"a{i}=x" for i in range(64)) + "></p>", 4)
    refuses("an element of 65 attributes", "<p " + " ".join(f"a{i}=x" for i in range(65)) + "></p>", "65 attributes")
    # Two bytes each in UTF-8.
    accepts("a text of 65,536 bytes", "<p>" + "\u00e9" * 32768 + "</p>", 5)
    accepts("a text of 65,536 bytes in pairs of surrogates", "<p>" + "\U0001f4da" * 16384 + "</p>", 5)
    refuses("a text of 65,540 bytes in pairs of surrogates", "<p>" + "\U0001f4da" * 16385 + "</p>", "65,540 bytes")
    refuses("a text of 65,538 bytes", "<p>" + "\u00e9" * 32769 + "</p>", "65,538 bytes")
    accepts("a value of 65,536 bytes", "<p title='" + "x" * 65536 + "'></p>", 4)
    refuses("a value of 65,537 bytes", "<p title='" + "x" * 65537 + "'></p>", "65,537 bytes")
    refuses("a name of 65,537 bytes", "<p " + "x" * 65537 + "></p>", "65,537 bytes")
    accepts("an attribute that the parser drops as a double", "<p title=a TITLE=b></p>", 4)
    refuses("two names that differ in case", "<svg id=s></svg><script>s.setAttribute('VIEWBOX', '');s.setAttribute('viewBox', '')</script>",
            'two attributes named "viewbox"')
    test_whole(browser)


def test_whole(browser: Any) -> None:
    """The limits of the address and of all bytes."""
    short = "https://limits.example/"
    with page() as path:
        text = collect_here(browser, path, "--url", short + "x" * (65536 - len(short))).text
        same("an address of 65,536 bytes is accepted", len(json.loads(text)["url"]), 65536)
        refused_here(browser, "an address of 65,537 bytes is refused", End.LIMIT, "the address has 65,537 bytes",
                     path, "--url", short + "x" * (65537 - len(short)))
        # The whole snapshot: filled up to its limit, and one byte past it.
        open_file(browser, path)
        browser.execute_script("""
            document.body.hidden = true;
            for (let i = 0; i < 128; i += 1) document.body.append('x'.repeat(65000));
            document.body.append('');""")
        room = 8388608 - len(take(browser, short).text)
        browser.execute_script("document.body.lastChild.data = 'x'.repeat(arguments[0])", room)
        text = take(browser, short).text
        expect("a snapshot of 8,388,608 bytes is accepted", len(text) == 8388608)
        well_formed("a snapshot of 8,388,608 bytes is well formed", text.encode("utf-8"))
        browser.execute_script("document.body.lastChild.data += 'x'")
        try:
            take(browser, short)
            expect("a snapshot of 8,388,609 bytes is refused", False)
        except Stop as stop:
            expect("a snapshot of 8,388,609 bytes is refused", stop.end is End.LIMIT and "8,388,609 bytes" in stop.line
                   and "in node 3 (body), with 65,000" in stop.line, stop.line)
