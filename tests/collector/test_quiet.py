"""The page stays as it was."""
from __future__ import annotations

from typing import Any

from ..support import expect, open_file, page, same, take_rows

QUIET = """<style>#box{height:60px;overflow:auto}#box p{height:300px}body{height:4000px}</style>
<p id=words>Some words to choose.</p><input id=one value="abcdef"><input id=two value="ghi"><button id=push>x</button>
<div id=edit contenteditable>words</div><div id=box><p>x</p><button>y</button></div>
<select id=drop><option>x</option><option>y</option></select><iframe id=frame srcdoc="<button>z</button>"></iframe>
<script>
window.log = [];
for (const target of [document, document.body, one, two, push, edit, drop, window])
  for (const name of ['focus', 'blur', 'focusin', 'focusout', 'change', 'select', 'scroll', 'toggle'])
    target.addEventListener(name, (event) => log.push(name + ' ' + (event.target.id || '')));
</script>"""


STATE = """
const chosen = getSelection();
const name = (node) => node && (node.id || node.nodeName + ' in ' + (node.parentNode && node.parentNode.id));
return JSON.stringify([document.activeElement.id, one.selectionStart, one.selectionEnd, one.value,
  chosen.rangeCount, name(chosen.anchorNode), chosen.anchorOffset, name(chosen.focusNode), chosen.focusOffset,
  scrollX, scrollY, box.scrollTop, document.documentElement.outerHTML]);"""


def test_unchanged(browser: Any) -> None:
    """Focus, selection, scroll and markup stay, and no listener hears a thing."""
    starts = {
        "nothing focused": "",
        "a field focused, with its own selection": "one.focus(); one.setSelectionRange(2, 4);",
        "words chosen, backwards": "getSelection().setBaseAndExtent(words.firstChild, 9, words.firstChild, 2);",
        "a caret in an editing host": "edit.focus(); getSelection().collapse(edit.firstChild, 3);",
        "a button focused": "push.focus();",
        "a drop-down list focused": "drop.focus();",
    }
    with page(QUIET) as path:
        for what, start in starts.items():
            open_file(browser, path)
            # Without this a headless page may get no focus events at all.
            browser.execute_cdp_cmd("Emulation.setFocusEmulationEnabled", {"enabled": True})
            browser.execute_script(start + "scrollTo(0, 700); box.scrollTop = 33;")
            browser.execute_async_script("const done = arguments[0]; requestAnimationFrame(() => setTimeout(done, 60));")
            browser.execute_script("""
                log.length = 0; window.changes = 0;
                new MutationObserver((list) => { changes += list.length; }).observe(document,
                  {subtree: true, childList: true, attributes: true, characterData: true});""")
            before = browser.execute_script(STATE)
            take_rows(browser)
            same(f"{what}: the state is as before", browser.execute_script(STATE), before)
            browser.execute_async_script("const done = arguments[0]; requestAnimationFrame(() => setTimeout(done, 60));")
            same(f"{what}: nothing was heard or changed", browser.execute_script("return [log, changes]"), [[], 0])
        browser.execute_script("log.length = 0; two.focus();")
        expect("and a listener does hear a real change of focus",
               "focus two" in browser.execute_script("return log"))
        browser.execute_cdp_cmd("Emulation.setFocusEmulationEnabled", {"enabled": False})
