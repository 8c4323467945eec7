"""Pages after what people do: a menu, a dialog that keeps the focus, a list that loads more; and steps that fail."""
from __future__ import annotations

import dataclasses
import json
import os
import pathlib
from typing import Any

from silvervole.collect.ends import End, Stop
from silvervole.collect.options import read_words
from silvervole.collect.pages import Visit
from silvervole.collect.places import place_of
from silvervole.collect.states import read_steps

from ..support import OWN_PAGES as PAGES, expect, form, page, refused, run, same, well_formed
from .server import Answer, ServePages
from .test_letters import letters_by_name

ADDRESS = "https://states.example/"
BOOKS = {f"/books?from={start}": Answer("application/json", json.dumps([f"Book {start + i}" for i in range(10)]).encode("ascii"))
         for start in (1, 11, 21)}


def text_in(rows: list[dict[str, Any]], identity: str) -> str:
    """The texts directly in the element with an id."""
    number = next(row["n"] for row in rows if row["tag"] is not None and form.attr(row, "id") == identity)
    return "".join(row["text"] for row in rows if row["p"] == number and row["text"] is not None)


def states_here(browser: Any, page_file: object, steps: object, *words: str) -> dict[str, list[dict[str, Any]]]:
    """The rows of each state of a page, by its name, in this browser."""
    options = read_words([str(page_file), "--states", str(steps), "--out", "page.json", *words]).options
    browser.get("about:blank")
    rows = {}
    for collected in Visit(browser, place_of(str(page_file)), options).states(read_steps(str(steps))):
        rows[json.loads(collected.text).get("state", "")] = form.check(collected.text.encode("utf-8"))
    return rows


def test_menu(folder: str) -> None:
    """By the command: a menu in a shadow tree, each state in a file with its name."""
    file = os.path.join(folder, "page.json")
    code, out, err = run(PAGES / "menu.html", "--url", ADDRESS, "--states", PAGES / "menu.toml", "--out", file, "--shot", f"{folder}/page.png")
    same("the menu is collected", (code, out, err), (0, b"", ""))
    names = ["page.json", "page.state-1-menu-open.json", "page.state-2-first-branch.json", "page.state-3-closed-again.json"]
    same("a file for each state", sorted(path.name for path in pathlib.Path(folder).iterdir() if path.suffix == ".json" and ".png" not in path.name), names)
    same("and a picture", sorted(path.name for path in pathlib.Path(folder).glob("*.png")), [name.replace(".json", ".png") for name in names])
    data = [pathlib.Path(folder, name).read_bytes() for name in names]
    same("each has its name", [json.loads(one).get("state") for one in data], [None, "menu open", "first branch", "closed again"])
    rows = [well_formed(name, one) for name, one in zip(names, data)]
    same("the items are shown while it is open", [[row["f"] for row in one if row["tag"] == "a"] for one in rows],
         [["", ""], ["rvft"] * 2, ["rvft"] * 2, ["", ""]])
    same("the button says so", [[form.attr(row, "aria-expanded") for row in one if row["tag"] == "button"] for one in rows],
         [["false"], ["true"], ["true"], ["false"]])
    same("where the focus was", [text_in(one, "told") for one in rows], ["", "Choose a branch", "North", "Choose a branch"])


def test_dialog(browser: Any) -> None:
    """A dialog that keeps the focus: snapshots in between move it nowhere, and lose no change."""
    rows = states_here(browser, PAGES / "dialog.html", PAGES / "dialog.toml", "--url", ADDRESS)
    same("where the focus was", {state: text_in(one, "told") for state, one in rows.items()}, {
        "": "", "dialog open": "name", "back to the last": "cancel", "round to the first": "name", "filled": "name",
        "chosen": "branch", "left": "open"})
    same("what was heard of changes", {state: text_in(one, "changes") for state, one in rows.items() if state in ("filled", "chosen", "left")}, {
        "filled": "", "chosen": "name=Ann;branch=South;", "left": "name=Ann;branch=South;"})
    same("the dialog's letters", [letters_by_name(one)["dialog"] for one in rows.values()], ["", *["rv"] * 5, ""])


def test_more(folder: str, serve_pages: ServePages) -> None:
    """A list that loads more, from a server."""
    base = serve_pages({"/more.html": Answer("text/html; charset=utf-8", (PAGES / "more.html").read_bytes()), **BOOKS})
    code, _, err = run(f"{base}/more.html", "--wait", "li:nth-child(10)", "--states", PAGES / "more.toml", "--out", f"{folder}/books", "--frames")
    same("the list is collected", (code, err), (0, ""))
    data = {name: pathlib.Path(folder, name).read_bytes() for name in ("books", "books.state-1-twenty", "books.state-2-all")}
    same("its length", [sum(row["tag"] == "li" for row in form.check(one)) for one in data.values()], [10, 20, 30])
    same("the addresses", {json.loads(one)["url"] for one in data.values()}, {f"{base}/more.html"})


STEPS = '[[step]]\nname = "one"\ndo = [{ click = "#one" }]\n\n[[step]]\nname = "two"\ndo = [%s]\n'
BODY = """<button id=one>x</button><p id=hidden hidden>x</p><div style="position:fixed;inset:100px 0 0 0;z-index:9" id=cover></div>
<button id=covered style="position:absolute;top:200px">x</button><p id=plain>x</p><select id=choose><option>a</select><x-a></x-a>"""
FAILING = {
    "a click on nothing": ('{ click = "#none" }', "click #none: nothing matches after 1 seconds"),
    "a click on what is hidden": ('{ click = "#hidden" }', "click #hidden: what matches isn't shown"),
    "a click on what is covered": ('{ click = "#covered" }', "click #covered: element click intercepted"),
    "a selector that is none": ('{ wait = "p[" }', "wait p[: p[ is no CSS selector"),
    "what isn't in a shadow tree": ('{ wait = "#plain >>> b" }', "wait #plain >>> b: nothing matches"),
    "what never comes": ('{ wait = "#never" }', "wait #never: nothing matches"),
    "what never goes": ('{ gone = "#plain" }', "gone #plain: it is shown still"),
    "what is no field": ('{ fill = "#plain", with = "x" }', "fill #plain: "),
    "an option that isn't there": ('{ fill = "#choose", with = "b" }', "fill #choose: Could not locate element with visible text: b"),
}
WRONG = {
    "what is no TOML": ("[[step", "isn't TOML"),
    "no step": ("", "at least one"),
    "something else": ("[[step]]\nname = 'a'\ndo = [{ press = 'Tab' }]\n[page]", "nothing else"),
    "a step without a name": ("[[step]]\ndo = [{ press = 'Tab' }]", "step 1: it has a name"),
    "a blank name": ("[[step]]\nname = ' '\ndo = [{ press = 'Tab' }]", "its name"),
    "one name twice": ("[[step]]\nname = 'a'\ndo = [{ press = 'Tab' }]\n" * 2, "two steps are named a"),
    "nothing to do": ("[[step]]\nname = 'a'\ndo = []", "at least one"),
    "an unknown word": ("[[step]]\nname = 'a'\ndo = [{ drag = '#x' }]", "one of click"),
    "two words at once": ("[[step]]\nname = 'a'\ndo = [{ click = '#x', press = 'Tab' }]", "one of click"),
    "a field without a text": ("[[step]]\nname = 'a'\ndo = [{ fill = '#x' }]", "fill has with"),
    "no key": ("[[step]]\nname = 'a'\ndo = [{ press = 'Entre' }]", "Entre is no key"),
}


def test_failing_steps(browser: Any, folder: str) -> None:
    """A step that fails says which and why, and what was taken before it is kept."""
    with page(BODY) as path:
        steps = pathlib.Path(folder, "steps.toml")
        for what, (action, says) in FAILING.items():
            steps.write_text(STEPS % action, encoding="utf-8")
            taken: list[str] = []
            try:
                options = read_words([path, "--url", ADDRESS, "--states", str(steps), "--out", "x.json"]).options
                browser.get("about:blank")
                visit = Visit(browser, place_of(path), options)
                # The page has had its minute to load; its steps get a second.
                visit.options = dataclasses.replace(options, timeout=1.0)
                for collected in visit.states(read_steps(str(steps))):
                    taken.append(collected.ending)
                expect(what, False, "the step didn't fail")
            except Stop as stop:
                expect(what, stop.end is End.STEP and stop.line.startswith("step 2 (two): ") and says in stop.line, f"{stop.end!r}: {stop.line}")
                same(f"{what}: what was taken before", taken, ["", "state-1-one"])
        for what, (text, says) in WRONG.items():
            steps.write_text(text, encoding="utf-8")
            try:
                read_steps(str(steps))
                expect(f"steps: {what}", False, "they are read")
            except Stop as stop:
                expect(f"steps: {what}", stop.end is End.USAGE and says in stop.line, stop.line)
        refused("steps that aren't there", End.USAGE, "can't be read", path, "--url", ADDRESS, "--states", f"{folder}/none", "--out", f"{folder}/x.json")
        steps.write_text(STEPS % '{ click = "#never" }', encoding="utf-8")
        code, out, err = run(path, "--url", ADDRESS, "--states", steps, "--out", f"{folder}/x.json", "--timeout", "6")
        expect("by the command too", code == End.STEP and out == b"" and err == "collect: step 2 (two): click #never: nothing matches after 6 seconds\n", err)
        same("the states before it are written", sorted(file.name for file in pathlib.Path(folder).glob("x*")), ["x.json", "x.state-1-one.json"])
