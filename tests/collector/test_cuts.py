"""What is cut of large pages, and what never is."""
from __future__ import annotations

import json
from typing import Any

from silvervole.collect.ends import End

from ..support import SOURCE, collect_here, expect, open_file, page, refused_here, run, same, well_formed

WRITTEN = ("--url", "https://large.example/")
LONG = 70_000


def test_cuts(browser: Any) -> None:
    """A text or a value that no rule looks at is cut where it alone passes the limit."""
    long = "y" * LONG
    for what, body, line in (
            ("a script", f"<script>//{long}</script>", "the text of node 5, in node 4 (script), has 70,002 bytes"),
            ("a style", f"<style>/*{long}*/</style>", "in node 4 (style), has 70,004 bytes"),
            ("a noscript", f"<noscript>{long}</noscript>", "in node 4 (noscript), has 70,000 bytes"),
            ("a picture's data", f"<img alt=x src='data:image/gif;base64,{long}'>", 'the attribute "src" of node 4 (img) has 70,022 bytes'),
            ("a style attribute", f"<p style='--x:{long}'>x", 'the attribute "style" of node 4 (p)'),
            ("a data attribute", f"<p data-state='{long}'>x", 'the attribute "data-state"'),
            ("the path of a drawing", f"<svg><path d='{long}'/></svg>", 'the attribute "d" of node 5 (path)')):
        with page(body) as path:
            collected = collect_here(browser, path, *WRITTEN)
            expect(f"{what} is cut, and told", len(collected.notes) == 1 and line in collected.notes[0]
                   and collected.notes[0].endswith("of which the first 256 are kept"), collected.notes)
            well_formed(f"{what}: the snapshot is well formed", collected.text.encode("utf-8"))
            expect(f"{what}: its front is kept", long[:200] in collected.text and long[:300] not in collected.text)
            refused_here(browser, f"{what} refuses the page with --exact", End.LIMIT, line, path, *WRITTEN, "--exact")
    with page(whole=f"<!DOCTYPE html><meta charset=utf-8><script>//{'€' * LONG}</script>") as path:
        collected = collect_here(browser, path, *WRITTEN)
        # Two bytes, and 84 characters of three: the next would be one byte too many.
        expect("no character is cut apart", '"//' + "€" * 84 + '"' in collected.text and "the first 254 " in collected.notes[0], collected.notes)
    with page(f"<script>//{long}</script>") as path:
        browser.get_log("browser")
        open_file(browser, path)
        text = browser.execute_script(f"return ({SOURCE})('https://large.example/')")
        told = [entry["message"] for entry in browser.get_log("browser") if "cut: the text of node 5" in entry["message"]]
        expect("without more words the console is told", len(told) == 1 and len(text) < LONG, told)
    with page("<template></template><script>document.querySelector('template').append('z'.repeat(70000))</script>") as path:
        collected = collect_here(browser, path, *WRITTEN)
        expect("a text that a script put into a template is cut", "in node 4 (template)" in "".join(collected.notes), collected.notes)


def test_uncut(browser: Any) -> None:
    """What a rule looks at is never cut: the page is refused with the node and the element."""
    long = "y" * LONG
    for what, body, line in (
            ("a paragraph's text", f"<p>{long}</p>", "the text of node 5, in node 4 (p), has 70,000 bytes"),
            ("a title attribute", f"<p title='{long}'>x", 'the attribute "title" of node 4 (p) has 70,000 bytes'),
            ("an aria- attribute", f"<p aria-made-up='{long}'>x", 'the attribute "aria-made-up" of node 4 (p)'),
            ("a language as XML has it", f"<p xml:lang='{long}'>x", 'the attribute "xml:lang" of node 4 (p)'),
            ("a link's address", f"<a href='data:,{long}'>x</a>", 'the attribute "href" of node 4 (a)'),
            ("a field's value", f"<input value='{long}'>", 'the attribute "value" of node 4 (input)'),
            ("a script that is shown", f"<script style='display:block'>//{long}</script>", "in node 4 (script)"),
            ("a script in what names a link", f"<div id=a hidden><script>//{long}</script>Text</div><a href=#a aria-labelledby='b a'>x</a>",
             "in node 5 (script)"),
            ("a script in what a list owns", f"<div id=a hidden><script>//{long}</script>Text</div><div role=list aria-owns='b a'></div>",
             "in node 5 (script)"),
            ("a style in a label", f"<label hidden><style>/*{long}*/</style>Text<input></label>", "in node 5 (style)")):
        with page(body) as path:
            refused_here(browser, f"{what} refuses the page", End.LIMIT, line, path, *WRITTEN)


def test_whole_cuts(browser: Any) -> None:
    """Where the whole is too long, what no rule looks at is cut from the longest on, as far as it must be."""
    scripts = "".join(f"<script>//{'z' * (64_000 + size)}</script>" for size in (1, 3, 2))
    with page("".join(f"<p hidden>{'y' * 65_000}</p>" for _ in range(127)) + scripts) as path:
        collected = collect_here(browser, path, *WRITTEN)
        texts = [row.get("text", "") for row in json.loads(collected.text)["nodes"]]
        same("the two longest are cut", [len(text) for text in texts if text.startswith("//")], [64_003, 256, 256])
        expect("and told from the longest on", [note.split(" has ")[1][:12] for note in collected.notes]
               == ["64,005 bytes", "64,004 bytes"], collected.notes)
        refused_here(browser, "with --exact the page is refused", End.LIMIT, "the snapshot has ", path, *WRITTEN, "--exact")
    with page("".join(f"<p hidden>{'y' * 65_000}</p>" for _ in range(129)) + scripts) as path:
        refused_here(browser, "what cuts can't mend is refused with its longest text", End.LIMIT,
                     "after all cuts; the form allows 8,388,608; the longest that a rule looks at: the text of node 5, in node 4 (p), with 65,000",
                     path, *WRITTEN)


def test_large_page() -> None:
    """A page of 12 MB with large scripts, by the command."""
    kept = "<p>What people read.</p>" * 200
    body = kept + "".join(f"<script>/* {place} {'s' * 1_000_000} */</script>" for place in range(10)) + f"<img alt=x src='data:,{'d' * 2_000_000}'>"
    with page(body) as path:
        code, out, err = run(path, *WRITTEN)
        rows = well_formed("a page of 12 MB is well formed", out)
        expect("a page of 12 MB is collected", code == 0 and len(rows) == 3 + 400 + 20 + 1, f"status {code}, {len(rows)} rows")
        lines = err.splitlines()
        expect("each cut is one line", len(lines) == 11 and all(line.startswith("collect: cut: ") for line in lines), err[:500])
        same("what people read is all there", out.count(b"What people read."), 200)
