"""The letters rvft, against the standard, the Tab key and focus()."""
from __future__ import annotations

from typing import Any

from ..support import OWN_PAGES, PAGES, SITE, expect, form, open_file, page, same, take_rows

# What the HTML standard, and for svg and math their own, say of the elements of
# pages/facts.html, written by hand. A name alone is the element with that id;
# "x text" is the first text in it.
FACTS = {
    # Being rendered; the head is display: none in the standard's own style sheet.
    "root": "rv", "body": "rv", "head": "", "title": "", "title text": "", "template": "",
    "plain": "rv", "plain text": "rv", "label": "rv",
    # Links are focusable where they have an href.
    "link": "rvft", "placeholder": "rv", "field": "rvft",
    # display: none takes the subtree away.
    "none": "", "none text": "", "none-button": "",
    "hidden": "", "hidden text": "", "hidden-button": "",
    # display: contents delegates the rendering to the children.
    "contents": "rv", "contents text": "rv", "contents-button": "rvft",
    # visibility keeps the box, and a child can be visible again.
    "unseen": "r", "unseen text": "r", "unseen-button": "r",
    "seen": "rv", "seen text": "rv", "seen-button": "rvft",
    "table": "rv", "collapsed": "r", "collapsed-cell": "r", "collapsed-cell text": "r",
    # Neither transparency nor place matters.
    "clear": "rv", "clear text": "rv", "clear-button": "rvft",
    "off": "rv", "off text": "rv", "off-button": "rvft",
    # hidden=until-found and content-visibility: hidden skip the contents alone.
    "until": "rv", "until text": "", "until-button": "",
    "skips": "rv", "skips text": "", "skips-button": "",
    # An inline box takes no containment, so nothing is skipped.
    "skips-not": "rv", "skips-not text": "rv", "skips-not-button": "rvft",
    # content-visibility: auto, out of sight: to be had by find-in-page, Tab and focus.
    "far": "rv", "far text": "rv", "far-button": "rvft",
    # Closed details show their first summary child alone, wherever it stands.
    "closed": "rv", "closed text": "", "closed-in": "", "closed-in text": "", "closed-button": "",
    "closed-first": "rvft", "closed-first text": "rv", "closed-second": "", "closed-second text": "",
    "open": "rv", "open-first": "rvft", "open-second": "rv", "open-in": "rv", "open-in text": "rv", "open-button": "rvft",
    # tabindex: parsed as an integer or left aside; negative is out of Tab's reach.
    "index-zero": "rvft", "index-minus": "rvf", "index-word": "rv", "index-tail": "rvf", "index-huge": "rv",
    "button-minus": "rvf", "button-word": "rvft",
    # Disabled controls; the first legend of a disabled fieldset is spared.
    "off-1": "rv", "off-2": "rv", "off-3": "rv", "off-4": "rv",
    "set": "rv", "set-legend": "rv", "set-legend-input": "rvft", "set-input": "rv", "set-link": "rvft",
    "secret": "",
    # Radio groups: none checked, one checked, a disabled one checked, no name,
    # the first out of reach, and groups parted by form and by the name's case.
    "a1": "rvft", "a2": "rvf",
    "b1": "rvf", "b2": "rvft", "b3": "rvf",
    "c1": "rvft", "c2": "rv", "c3": "rvf",
    "d1": "rvft", "d2": "rvft",
    "e1": "rvf", "e2": "rvft", "e3": "rvf",
    "form-1": "rv", "form-2": "rv", "g1": "rvft", "g2": "rvft", "g3": "rvft", "g4": "rvf",
    # Editing hosts, and what stands in them.
    "edit": "rvft", "edit text": "rv", "edit-in": "rv", "edit-false": "rv", "edit-minus": "rvf", "edit-not": "rv",
    "edit-more": "rvft",
    # The shapes of an area, on the image that uses the map.
    "mapped": "rv", "map": "rv", "area": "rvft", "area-plain": "rv",
    "map-2": "rv", "area-unused": "", "unseen-mapped": "r", "map-3": "rv", "area-unseen": "r",
    # SVG: links, tabindex, what is never drawn; title and desc as the docs say.
    "svg": "rv", "svg-title": "rv", "svg-title text": "rv", "svg-desc": "rv",
    "svg-defs": "", "svg-defs-path": "", "svg-symbol": "", "svg-symbol-path": "",
    "svg-link": "rvft", "svg-text": "rv", "svg-text text": "rv", "svg-link-plain": "rv", "svg-circle": "rv",
    "svg-index": "rvft", "svg-none": "", "svg-none-circle": "",
    "math": "rv", "math-mi": "rv", "math-index": "rvft",
    # Inert: seen, and out of reach.
    "inert": "rv", "inert text": "rv", "inert-button": "rv", "inert-link": "rv",
    # Fallback content. That of a canvas stands for what is drawn on it, so it takes focus.
    "canvas": "rv", "canvas text": "", "canvas-button": "ft", "canvas-p": "f",
    "video": "rv", "video text": "", "video-button": "", "audio": "", "audio text": "",
    "object": "rv", "object text": "", "object-button": "",
    "object-empty": "rv", "object-empty text": "rv", "object-empty-button": "rvft",
    "frame": "rvft", "frame text": "", "frame-minus": "rvf",
    "progress": "rv", "progress text": "", "meter": "rv", "meter text": "",
    "area-text": "rvft", "area-text text": "", "noscript": "", "noscript text": "",
    # Lists of choices.
    "drop": "rvft", "drop-option": "rv", "drop-option text": "rv", "drop-group": "rv", "drop-option-2": "rv",
    "list": "rvft", "list-option": "rv", "list-option text": "rv",
    "choose": "rvft", "choices": "", "choice": "", "choice text": "",
    # What isn't open.
    "dialog": "", "dialog text": "", "dialog-button": "", "popover": "", "popover text": "", "popover-button": "",
    "ruby": "rv", "rp": "", "rp text": "", "rt": "rv",
    # Children of a shadow host are shown where they are slotted.
    "host": "rv", "host text": "", "slotted": "rv", "slotted text": "rv", "unslotted": "", "unslotted text": "",
    "host-text": "rv", "host-text text": "rv", "host-none": "rv", "host-none text": "", "host-none-b": "",
    "end": "rv", "end text": "rv",
}


# What the standard leaves to the browser, as Chromium does it.
CHROMIUM_FACTS = {
    # A host that delegates its focus is the active element with its inside focused.
    "delegates": "rvft",
    # The browser's own summary of details without one.
    "bare": "rvt", "bare text": "rv",
    # Closed details whose contents a style shows all the same.
    "shown": "rv", "shown text": "rv", "shown-first": "rvft", "shown-in": "rv", "shown-in text": "rv",
    # An open dialog takes focus from scripts, and no Tab stop.
    "dialog-open": "rvf", "dialog-open text": "rv",
    # A scrolling box is a stop where nothing in it is.
    "scroller": "rvft", "scroller-in": "rv", "scroller-stop": "rvf", "scroller-button": "rvft",
    # A link inside an editing host is text to edit.
    "edit-link": "rv",
}


def letters_by_name(rows: list[dict[str, Any]]) -> dict[str, str]:
    """The letters of each element with an id, and of the first text in it."""
    names, letters = {}, {}
    for row in rows:
        if row["tag"] is not None:
            name = form.attr(row, "id")
            if name:
                names[row["n"]] = name
                letters[name] = row["f"]
        elif row["p"] in names:
            letters.setdefault(f"{names[row['p']]} text", row["f"])
    return letters


ACTIVE = "return document.activeElement === document.body ? null : document.activeElement.id"


def press_tab(browser: Any, most: int = 400, active: str = ACTIVE) -> set[str]:
    """The ids of what the Tab key reaches, by pressing it; the script gives the id of what has the focus."""
    from selenium.webdriver.common.action_chains import ActionChains
    from selenium.webdriver.common.keys import Keys
    reached: set[str] = set()
    for press in range(most):
        ActionChains(browser).send_keys(Keys.TAB).perform()
        name = browser.execute_script(active)
        if name is None and press > 0:
            return reached
        if name is not None:
            reached.add(name)
    return {"no end"}


def test_facts(browser: Any) -> None:
    """Each letter of pages/facts.html."""
    page = OWN_PAGES / "facts.html"
    open_file(browser, page)
    text, rows = take_rows(browser)
    letters = letters_by_name(rows)
    wanted = {**FACTS, **CHROMIUM_FACTS}
    for name, expected in wanted.items():
        same(f"the letters of {name}", letters.get(name), expected)
    elements = {name for name in letters if not name.endswith(" text")}
    same("elements without expected letters", sorted(elements - set(wanted)), [])
    expect("the letters stand in the order rvft",
           all(row["f"] == "".join(letter for letter in "rvft" if letter in row["f"]) for row in rows))
    for what in ("comment", "template", "shadow tree", "frame"):
        held = [row for row in rows if f"left out: {what}" in (row["text"] or "")]
        same(f"rows of a {what}", held, [])
    text_again, _ = take_rows(browser)
    expect("a second snapshot of the same page is the same", text == text_again)
    # The browser itself, as a second opinion on f and t.
    open_file(browser, page)
    reached = press_tab(browser)
    same("what the Tab key reaches", sorted(reached), sorted(name for name in elements if "t" in letters[name]))
    open_file(browser, page)
    taken = browser.execute_script("""
        return [...document.querySelectorAll('[id]')].filter((element) => {
          element.focus();
          const took = element !== document.body && document.activeElement === element;
          document.activeElement.blur();
          return took;
        }).map((element) => element.id);""")
    same("what focus() makes the active element", sorted(taken), sorted(name for name in elements if "f" in letters[name]))


def test_example_stops(browser: Any) -> None:
    """On the example site too, t is what the Tab key reaches."""
    for name in PAGES:
        rows = form.check((SITE / f"{name}.json").read_bytes())
        open_file(browser, SITE / f"{name}.html")
        browser.execute_script("""
            const walker = document.createTreeWalker(document, NodeFilter.SHOW_ELEMENT | NodeFilter.SHOW_TEXT);
            let n = 0;
            while (walker.nextNode()) { n += 1; if (walker.currentNode.nodeType === 1) walker.currentNode.id = 'n' + n; }""")
        reached = sorted(int(mark[1:]) for mark in press_tab(browser))
        same(f"{name}: what the Tab key reaches", reached, sorted(row["n"] for row in rows if "t" in row["f"]))


def test_modal(browser: Any) -> None:
    """Of an open modal dialog and the rest of its page."""
    with page("<button id=outside>x</button><iframe id=frame srcdoc=x></iframe>"
              "<dialog id=modal><button id=inside>x</button></dialog>"
              "<script>document.getElementById('modal').showModal()</script>") as path:
        open_file(browser, path)
        letters = letters_by_name(take_rows(browser)[1])
        same("a modal dialog makes the rest inert", {name: letters[name] for name in ("outside", "frame", "inside")},
             {"outside": "rv", "frame": "rv", "inside": "rvft"})


def test_root(browser: Any) -> None:
    """The root and the body take focus by their own attributes alone."""
    for attributes, wanted in (
            (("", ""), ("rv", "rv")),
            (("tabindex=0", "tabindex=-1"), ("rvft", "rvf")),
            (("", "contenteditable"), ("rv", "rvft")),
            (("inert", "tabindex=0"), ("rv", "rv"))):
        root, body = attributes
        with page(whole=f"<!DOCTYPE html><html id=root {root}><body id=body {body}><p>x</p></body></html>") as path:
            open_file(browser, path)
            letters = letters_by_name(take_rows(browser)[1])
            same(f"the root and the body, with {attributes}", (letters["root"], letters["body"]), wanted)
