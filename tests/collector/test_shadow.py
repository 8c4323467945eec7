"""Shadow trees: the flat tree, ids and what refers to them, ElementInternals, letters and the Tab key."""
from __future__ import annotations

import json
from typing import Any

from silvervole.collect.ends import End
from silvervole.collect.taking import Wanted, take
from silvervole.view.page import read_page, start_tag
from silvervole.view.paths import css_path

from ..support import OWN_PAGES, SOURCE, collect_here, expect, form, open_file, page, refused_here, run, same
from .test_letters import letters_by_name, press_tab

ADDRESS = "https://shadow.example/"
WRITTEN = ("--url", ADDRESS)
FLAT = Wanted(shadow=True)


def tree(body: str, words: str = "") -> str:
    """A shadow tree in the markup of its host."""
    return f"<template shadowrootmode={words or 'open'}>{body}</template>"


REFERENCES = ("<i id=a></i><p aria-labelledby=' a  b' aria-describedby=a aria-owns=''></p>"
              "<input list=a form=b><output for='a b'></output>")
# The body of a page, and what is written of it: each element with its id, its tree and its places, and what is below it.
OUTLINES = {
    "a host without slots": (f"<x-a>{tree('<b>in</b>')}<i>out</i></x-a>", "x-a(b in:1 at:1('in'))"),
    "a slot with content": (f"<x-a>{tree('<p><slot></slot></p>')}one<i>two</i></x-a>", "x-a(p in:1 at:1('one' i at:1('two')))"),
    "a slot with its own content": (f"<x-a>{tree('<slot><u>own</u>text</slot>')}</x-a>", "x-a(u in:1 at:1,1('own') 'text'in:1)"),
    "named slots, in the tree's order": (
        f"<x-a>{tree('<slot name=b></slot><hr><slot name=a></slot>')}<i slot=a>1</i><u slot=b>2</u><s slot=c>3</s></x-a>",
        "x-a(u at:2('2') hr in:1 at:2 i at:1('1'))"),
    "the first of two slots takes all": (f"<x-a>{tree('<p><slot></slot></p><q><slot>own</slot></q>')}<i>1</i></x-a>",
                                         "x-a(p in:1 at:1(i at:1('1')) q in:1 at:2('own'))"),
    "a slot in a slot's own content": (f"<x-a>{tree('<slot name=n><b>1</b><slot><i>2</i></slot></slot>')}</x-a>",
                                       "x-a(b in:1 at:1,1('1') i in:1 at:1,2,1('2'))"),
    "trees in trees": (f"<x-a>{tree('<x-b>' + tree('<b>deep</b>') + '</x-b>')}</x-a><x-c>{tree('<i>3</i>')}</x-c>",
                       "x-a(x-b in:1 at:1(b in:2 at:1('deep'))) x-c(i in:3 at:1('3'))"),
    "a slot handed on to a slot": (
        f"<x-a>{tree('<x-b>' + tree('<p><slot></slot></p>') + '<slot></slot><u>a</u></x-b>')}<i>given</i></x-a>",
        "x-a(x-b in:1 at:1(p in:2 at:1(i at:1('given') u in:1 at:2('a'))))"),
    "a slot with an id, and one with a box": (
        f"<x-a>{tree('<slot id=s></slot><slot name=b style=display:block>own</slot>')}<i>1</i></x-a>",
        "x-a(slot#s@shadow-1 in:1 at:1(i at:1('1')) slot in:1 at:2('own'))"),
    "a slot outside of shadow trees": ("<slot><i>1</i></slot>", "slot(i('1'))"),
    "an element of the page as a host": (f"<section>{tree('<h2>t</h2><slot></slot>')}<p>1</p></section>",
                                         "section(h2 in:1 at:1('t') p at:1('1'))"),
    "a closed tree, as without shadow trees": (f"<x-a>{tree('<b>in</b>', 'closed')}<i>out</i></x-a>", "x-a(i('out'))"),
    "a table whose rows stand in a shadow tree": (
        f"<div role=table>{tree('<div role=row><slot name=a></slot></div><div role=row><slot name=b></slot></div>')}"
        "<span role=cell slot=b>2</span><span role=cell slot=a>1</span></div>",
        "div(div in:1 at:1(span at:2('1')) div in:1 at:2(span at:1('2')))"),
    "equal ids in two trees": (
        f"<label for=f>1</label><input id=f><x-a id=f>{tree('<label for=f>2</label><input id=f>')}</x-a>",
        "label for=f('1') input#f x-a#f(label for=f@shadow-1 in:1 at:1('2') input#f@shadow-1 in:1 at:2)"),
    "what names ids": (
        f"<x-a>{tree(REFERENCES)}</x-a>",
        "x-a(i#a@shadow-1 in:1 at:1 p aria-labelledby= a@shadow-1  b@shadow-1 aria-describedby=a@shadow-1 aria-owns= in:1 at:2"
        " input list=a@shadow-1 form=b@shadow-1 in:1 at:3 output for=a@shadow-1 b@shadow-1 in:1 at:4)"),
    "headers of cells": (f"<x-a>{tree('<table><tr><th id=h><td headers=h></table>')}</x-a>",
                         "x-a(table in:1 at:1(tbody in:1(tr in:1(th#h@shadow-1 in:1 td headers=h@shadow-1 in:1))))"),
    "links into the own tree, and to the document": (
        f"<p id=d><x-a>{tree('<i id=s></i><a href=#s></a><a href=#d></a><a href=/x#s></a>')}</x-a>",
        "p#d(x-a(i#s@shadow-1 in:1 at:1 a href=#s@shadow-1 in:1 at:2 a href=#d in:1 at:3 a href=/x#s in:1 at:4))"),
    "ids of what is slotted are the outer tree's": (
        f"<i id=o></i><x-a>{tree('<p id=o><slot></slot></p>')}<b id=l aria-labelledby=o></b></x-a>",
        "i#o x-a(p#o@shadow-1 in:1 at:1(b#l aria-labelledby=o at:1))"),
    "a host that hands references on": (
        f"<label for=h>L</label><x-a id=h>{tree('<x-b id=m>' + tree('<input id=n>', 'open shadowrootreferencetarget=n') + '</x-b>', 'open shadowrootreferencetarget=m')}</x-a>",
        "label for=n@shadow-2('L') x-a#h(x-b#m@shadow-1 in:1 at:1(input#n@shadow-2 in:2 at:1))"),
}
REFERRING = ("for", "list", "form", "headers", "href", "aria-labelledby", "aria-describedby", "aria-owns")


def outline(rows: list[dict[str, Any]], parent: dict[str, Any]) -> str:
    """What is written below a row, on one line."""
    return " ".join(filter(None, (outline_of(row, parent, rows) for row in rows if row["p"] == parent["n"])))


def outline_of(row: dict[str, Any], parent: dict[str, Any], rows: list[dict[str, Any]]) -> str:
    """What is written of a row; of a text its tree where that isn't its parent's."""
    tree_of = f"in:{row['in']}" if "in" in row else ""
    if "text" in row:
        return f"'{row['text']}'{tree_of if row.get('in') != parent.get('in') else ''}" if row["text"].strip() else ""
    attrs = dict(row["attrs"])
    identity = f"#{attrs['id']}" if "id" in attrs else ""
    words = [f"{row['tag']}{identity}", *(f"{name}={attrs[name]}" for name in REFERRING if name in attrs), tree_of,
             f"at:{','.join(map(str, row['at']))}" if "at" in row else ""]
    below = outline(rows, row)
    return " ".join(filter(None, words)) + (f"({below})" if below else "")


def flat_rows(browser: Any, path: Any) -> list[dict[str, Any]]:
    """The rows of a page with its shadow trees."""
    open_file(browser, path)
    text = take(browser, ADDRESS, FLAT).text
    form.check(text.encode("utf-8"))
    return json.loads(text)["nodes"]


def test_flat_tree(browser: Any) -> None:
    """What stands where, and how ids are marked."""
    for what, (body, wanted) in OUTLINES.items():
        with page(body) as path:
            rows = flat_rows(browser, path)
            same(what, outline(rows, next(row for row in rows if row.get("tag") == "body")), wanted)


INTERNALS = """<x-field id=f></x-field><label for=f>Label</label><label>Around <x-field id=g aria-label=Own></x-field></label>
<x-role id=r></x-role><x-role id=o role=link aria-label=Own aria-pressed=false></x-role><p id=named>N</p><p class=unnamed>U</p>
<div id=e></div><x-shadow id=s></x-shadow>
<script>
customElements.define('x-field', class extends HTMLElement {
  static formAssociated = true;
  constructor() { super(); const internals = this.attachInternals(); internals.role = 'textbox'; internals.ariaRequired = 'true'; }
});
customElements.define('x-role', class extends HTMLElement {
  constructor() {
    super(); const internals = this.attachInternals();
    Object.assign(internals, { role: 'button', ariaLabel: 'Said', ariaPressed: 'true', ariaDescribedByElements: [document.querySelector('.unnamed')] });
  }
});
customElements.define('x-shadow', class extends HTMLElement {
  constructor() {
    super(); const tree = this.attachShadow({ mode: 'open' }); tree.innerHTML = '<i id=named>In</i><b role=checkbox></b>';
    tree.querySelector('b').ariaLabelledByElements = [tree.querySelector('i'), document.querySelector('#named')];
  }
});
e.ariaLabelledByElements = [named, document.querySelector('.unnamed')];
e.ariaActiveDescendantElement = named;
</script>"""
SAID = {
    "f": [["id", "f"], ["role", "textbox"], ["aria-required", "true"], ["aria-labelledby", "@made-1"]],
    "g": [["id", "g"], ["aria-label", "Own"], ["role", "textbox"], ["aria-required", "true"]],
    "r": [["id", "r"], ["role", "button"], ["aria-describedby", "@made-2"], ["aria-label", "Said"], ["aria-pressed", "true"]],
    "o": [["id", "o"], ["role", "link"], ["aria-label", "Own"], ["aria-pressed", "false"], ["aria-describedby", "@made-2"]],
    "e": [["id", "e"], ["aria-labelledby", "named @made-2"], ["aria-activedescendant", "named"]],
}


def test_internals(browser: Any) -> None:
    """What scripts say by ElementInternals, and by elements instead of ids, is written as attributes."""
    with page(INTERNALS) as path:
        rows = flat_rows(browser, path)
        attrs = {dict(row["attrs"]).get("id"): row["attrs"] for row in rows if "tag" in row}
        for identity, pairs in SAID.items():
            same(f"what is said of {identity}", attrs[identity], pairs)
        same("elements of two trees by reference", [dict(row["attrs"])["aria-labelledby"] for row in rows if row.get("tag") == "b"],
             ["named@shadow-1 named"])
        plain = [pair for row in form.check(take(browser, ADDRESS).text.encode("utf-8")) for pair in row["attrs"]]
        expect("without shadow trees none of it is written", ["role", "textbox"] not in plain and ["aria-labelledby", ""] in plain, plain)


# The letters of pages/shadow.html, by the standard's rules and, for t, by Chromium's Tab key.
LETTERS = {
    "root": "rv", "head": "", "title": "", "title text": "", "body": "rv", "light": "rv", "light-button": "rvft", "open": "rv",
    "first": "rvft", "given": "rvft", "last": "rvf",
    # What is hidden hides what is slotted into it.
    "none": "", "none text": "", "given-none": "", "none-button": "", "unseen": "r", "given-unseen": "r", "unseen-button": "r",
    "skips": "rv", "skips text": "", "given-skips": "", "skips-button": "",
    "closed": "rv", "summary": "rvft", "given-closed": "", "closed-button": "", "given-gone": "", "gone-button": "", "gone-fallback": None,
    "inert": "rv", "given-inert": "rv", "inert-button": "rv", "inert-frame": "rv", "unslotted": None, "unslotted-button": None,
    # A slot with a box takes focus from scripts, and Tab passes it over.
    "boxed": "rvf", "fallback": "rvft",
    # Radio buttons, image maps: each tree has its own.
    "r1": "rvf", "r2": "rvft", "r3": "rvft", "r4": "rvf", "map": "rv", "area": "rvft", "image": "rv", "unmapped": "rv",
    # A host that delegates its focus has none itself.
    "delegates": "rv", "words": "rv", "delegate": "rvft", "delegates-stop": "rv", "delegate-2": "rvft", "stop": "rvft", "stop-button": "rvft",
    # With a negative tabindex Tab passes over all that is in a host or a slot.
    "passed": "rvf", "passed-button": "rvf", "passed-given": "rvf", "slot-minus": "rv", "slot-minus-given": "rvf",
    "slot-minus-bare": "rv", "slot-minus-fallback": "rvf",
    "deep": "rv", "deeper": "rv", "deep-given": "rvft", "deep-button": "rvft",
    "scrolls": "rvf", "scrolls-button": "rvft", "scrolls-bare": "rvft", "shut": "rv",
}
DEEP = """
let active = document.activeElement;
while (active.shadowRoot && active.shadowRoot.activeElement) active = active.shadowRoot.activeElement;
return active === document.body ? null : active.id;
"""


def test_shadow_letters(browser: Any) -> None:
    """Each letter of pages/shadow.html, against the Tab key."""
    path = OWN_PAGES / "shadow.html"
    rows = [{"text": None, "tag": None, **row, "attrs": [[name, value.partition("@")[0]] for name, value in row.get("attrs", ())]}
            for row in flat_rows(browser, path)]
    letters = letters_by_name(rows)
    for name, wanted in LETTERS.items():
        same(f"the letters of {name}", letters.get(name), wanted)
    same("elements without expected letters", sorted({name for name in letters if not name.endswith(" text")} - set(LETTERS)), [])
    open_file(browser, path)
    reached = press_tab(browser, active=DEEP)
    same("what the Tab key reaches", sorted(reached - {"shut"}), sorted(name for name, value in LETTERS.items() if "t" in (value or "")))
    expect("the stop in the closed tree shows as its host, which takes no focus itself", "shut" in reached)


def test_same_bytes(browser: Any) -> None:
    """On a page without shadow trees the bytes are the same with them as without."""
    open_file(browser, OWN_PAGES / "facts.html")
    expect("where there are shadow trees they differ", take(browser, ADDRESS).text != take(browser, ADDRESS, FLAT).text)
    browser.execute_script("document.querySelectorAll('#host, #host-text, #host-none, #delegates').forEach((host) => host.remove())")
    expect("where there are none they are the same", take(browser, ADDRESS).text == take(browser, ADDRESS, FLAT).text)
    with page(f"<img name=host alt=x><iframe srcdoc=x></iframe><script>//{'y' * 70_000}</script><x-a>{tree('<iframe></iframe>')}</x-a>") as path:
        rows = form.check(collect_here(browser, path, *WRITTEN).text.encode("utf-8"))
        same("an image named host is no host", [row["f"] for row in rows if row["tag"] == "iframe"], ["rvft", "rvft"])
    with page("<slot name=a id=@shadow-1><b>x</b></slot><a href=#x>x</a><p id=x aria-labelledby='x y' aria-owns=''>") as path:
        same("marks and slots of a page without shadow trees", collect_here(browser, path, *WRITTEN).text,
             collect_here(browser, path, *WRITTEN, "--no-shadow").text)


def test_shadow_words(browser: Any) -> None:
    """By the command: with shadow trees, without, and what is said of closed ones and of limits."""
    body = f"<x-a>{tree('<b>open in</b>')}</x-a><x-b>{tree('<b>closed in</b>', 'closed')}out</x-b><x-b>{tree('', 'closed')}</x-b>"
    with page(body) as path:
        code, out, err = run(path, *WRITTEN)
        expect("the command takes open shadow trees", code == 0 and b"open in" in out and b"closed in" not in out and b'"out"' in out)
        same("and counts the closed ones", err, "collect: 2 closed shadow trees are left out, of x-b (2)\n")
        code, out, err = run(path, *WRITTEN, "--no-shadow")
        expect("with --no-shadow it takes none, and tells nothing", code == 0 and err == "" and b"open in" not in out, err)
    with page(f"<x-a>{tree('<i></i>' * 9996)}</x-a>") as path:
        same("10,000 nodes are taken", len(form.check(collect_here(browser, path, *WRITTEN).text.encode("utf-8"))), 10_000)
    with page(f"<x-a>{tree('<i></i>' * 9997)}</x-a>") as path:
        refused_here(browser, "a node more is refused", End.LIMIT, "more than 10,000 nodes", path, *WRITTEN)
    with page(f"<x-a>{tree('<p>' + 'y' * 70_000)}</x-a>") as path:
        refused_here(browser, "a long text in a shadow tree", End.LIMIT, "the text of node 6, in node 5 (p)", path, *WRITTEN)
    with page(f"<x-a>{tree('<div id=l><slot></slot></div><b aria-labelledby=l></b>')}<script>//{'y' * 70_000}</script></x-a>") as path:
        refused_here(browser, "a script that is slotted into what names an element", End.LIMIT, "in node 6 (script)", path, *WRITTEN)


SHADOW_QUIET = f"""<x-a id=host>{tree('<input id=one value=abcdef><input id=two><button id=push>x</button><div id=edit contenteditable>words</div>')}</x-a>
<button id=out>x</button>
<script>
window.log = [];
for (const target of [...host.shadowRoot.querySelectorAll('[id]'), host, out, document, window])
  for (const name of ['focus', 'blur', 'focusin', 'focusout', 'change', 'select'])
    target.addEventListener(name, (event) => log.push(name + ' ' + (event.target.id || '')));
</script>"""


def test_shadow_unchanged(browser: Any) -> None:
    """The focus stays in its shadow tree, and no listener there hears a thing."""
    state = f"const focused = (() => {{ {DEEP} }})(); const one = host.shadowRoot.getElementById('one');" \
            "return [focused, one.selectionStart, one.selectionEnd, document.body.outerHTML];"
    with page(SHADOW_QUIET) as path:
        for start in ("", "one.focus(); one.setSelectionRange(2, 4);", "push.focus()", "edit.focus()", "out.focus()"):
            open_file(browser, path)
            browser.execute_cdp_cmd("Emulation.setFocusEmulationEnabled", {"enabled": True})
            browser.execute_script("const [one, push, edit] = ['one', 'push', 'edit'].map((id) => host.shadowRoot.getElementById(id));"
                                   f"{start};")
            browser.execute_async_script("const done = arguments[0]; requestAnimationFrame(() => setTimeout(() => { log.length = 0; done(); }, 60));")
            before = browser.execute_script(state)
            take(browser, ADDRESS, FLAT)
            same(f"after {start or 'nothing'}: as before", browser.execute_script(state), before)
            same(f"after {start or 'nothing'}: nothing was heard", browser.execute_script("return log"), [])
        browser.execute_cdp_cmd("Emulation.setFocusEmulationEnabled", {"enabled": False})


# Of the paths of a page's rows, those that don't find their element, or find another.
ASTRAY = f"""
let rows = [];
({SOURCE})(arguments[0], {{ shadow: true, nodes: (list) => {{ rows = list; }} }});
return arguments[1].filter(([n, path]) => {{
  let found = [document];
  for (const part of path.split(' >>> ')) found = found.flatMap((one) => [...(one === document ? one : one.shadowRoot).querySelectorAll(part)]);
  return found.length !== 1 || found[0] !== rows[n - 1].node;
}});
"""


def test_shadow_paths(browser: Any) -> None:
    """The view's paths lead into shadow trees, and its start tags have ids as the page has them."""
    bodies = "".join(body for body, _ in OUTLINES.values())
    with page(bodies) as path:
        for what in (path, str(OWN_PAGES / "shadow.html")):
            open_file(browser, what)
            shown = read_page(take(browser, ADDRESS, FLAT).text.encode("utf-8"), what)
            paths = [[node.number, css_path(shown, node)] for node in shown.nodes.values() if node.is_element]
            same(f"{what}: paths that don't find their element", browser.execute_script(ASTRAY, ADDRESS, paths), [])
            tags = " ".join(start_tag(node) for node in shown.nodes.values() if node.is_element)
            expect(f"{what}: no mark is shown", "@shadow" not in tags and 'id="f' in tags + 'id="f', tags)
    with page(f"<x-a>{tree('<p>x</p><slot></slot>')}<b>y</b></x-a>") as path:
        open_file(browser, path)
        shown = read_page(take(browser, ADDRESS, FLAT).text.encode("utf-8"), path)
        same("paths of a shadow tree, and of what is slotted", {node.tag: css_path(shown, node) for node in shown.nodes.values() if node.tag in ("p", "b")},
             {"p": "html > body > x-a >>> :host > p:nth-child(1)", "b": "html > body > x-a > b:nth-child(1)"})
