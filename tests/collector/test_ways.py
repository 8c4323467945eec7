"""The other ways to use the function, as docs/use/collecting.md and examples/collecting have them."""
from __future__ import annotations

import json
import pathlib
import re
import subprocess
import time
from typing import Any

from silvervole.collect.browser import start_browser
from silvervole.collect.states import read_steps

from ..support import DOCS, PAGES, ROOT, SITE, SOURCE, expect, same

PROGRAMS = ROOT / "examples" / "collecting"


def block(heading: str, language: str) -> str:
    """The first code block of a language under a heading of the docs."""
    text = DOCS.read_text(encoding="utf-8")
    part = text[text.index(f"\n## {heading}\n"):]
    return re.findall(rf"```{language}\n(.*?)```", part, re.DOTALL)[0]


def test_ways(browser: Any, base: str, folder: str) -> None:
    """The Selenium program, an expression, the console and the bookmarklet give the same snapshot."""
    address = f"{base}/home.html"
    wanted = {**json.loads((SITE / "home.json").read_bytes()), "url": address}
    done = subprocess.run(["/usr/bin/python3", PROGRAMS / "with_selenium.py", address], cwd=ROOT, stdin=subprocess.DEVNULL,
                          stdout=subprocess.PIPE, stderr=subprocess.PIPE, check=False)
    expect("the Selenium program of the examples", done.returncode == 0 and json.loads(done.stdout or b"0") == wanted,
           done.stderr.decode("utf-8", "replace")[-500:])
    steps = pathlib.Path(folder, "search.toml")
    steps.write_text(block("States", "toml"), encoding="utf-8")
    same("the steps of the docs", [(step.ending, len(step.actions)) for step in read_steps(str(steps))],
         [("state-1-menu-open", 2), ("state-2-searched", 4)])
    # What page.evaluate of Playwright and Puppeteer sends for a text.
    browser.get(address)
    answer = browser.execute_cdp_cmd("Runtime.evaluate", {
        "expression": f"({SOURCE})({json.dumps(PAGES['home'])}, {{ shadow: true }})", "returnByValue": True})
    expect("an expression for a driver", json.loads(answer["result"]["value"]) == {**wanted, "url": PAGES["home"]})
    # What pasting into a console does: the function first, then its call.
    browser.execute_cdp_cmd("Runtime.evaluate", {"expression": SOURCE})
    answer = browser.execute_cdp_cmd("Runtime.evaluate", {"expression": "silvervoleSnapshot()", "returnByValue": True})
    expect("a paste into the console", json.loads(answer["result"]["value"]) == wanted)
    done = subprocess.run(["/usr/bin/python3", PROGRAMS / "bookmarklet.py"], cwd=ROOT, stdin=subprocess.DEVNULL,
                          stdout=subprocess.PIPE, check=False)
    link = done.stdout.decode("utf-8").strip()
    expect("the bookmarklet is one line", link.startswith("javascript:") and "\n" not in link and " " not in link)
    other = start_browser()
    try:
        other.execute_cdp_cmd("Page.setDownloadBehavior", {"behavior": "allow", "downloadPath": folder})
        other.get(address)
        other.execute_script("location.href = arguments[0]", link)
        file = pathlib.Path(folder, "page.json")
        for _ in range(100):
            if file.exists() and file.stat().st_size > 0:
                break
            time.sleep(0.1)
        expect("the bookmarklet saves the snapshot", file.exists() and json.loads(file.read_bytes()) == wanted)
        same("the bookmarklet leaves the page", other.current_url, address)
    finally:
        other.quit()
