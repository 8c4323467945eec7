"""axe-core on a page in the browser, where it is installed."""
from __future__ import annotations

import functools
import os
import pathlib
from typing import Any

from .support import ROOT, note

# The first is where tools/axe-core writes it.
PLACES = (f"{ROOT}/build/axe.min.js", "node_modules/axe-core/axe.min.js", "/usr/share/nodejs/axe-core/axe.min.js",
          "/usr/lib/node_modules/axe-core/axe.min.js", "/usr/local/lib/node_modules/axe-core/axe.min.js")
RUN = """
const done = arguments[0];
axe.run().then(({ violations }) => done(violations.map((one) => `${one.id}: ${one.nodes[0].target}`)), (error) => done([String(error)]));
"""


@functools.lru_cache
def axe_text() -> str | None:
    """axe-core, which AXE_CORE names, or tools/axe-core wrote, or an npm folder has; None where it isn't there."""
    source = next((pathlib.Path(file) for file in (os.environ.get("AXE_CORE", ""), *PLACES) if file and os.path.isfile(file)), None)
    return None if source is None else source.read_text(encoding="utf-8")


def violations(browser: Any) -> list[str]:
    """What the shown page breaks of axe-core's rules, each with the first place; nothing where axe-core isn't there, which is noted."""
    text = axe_text()
    if text is None:
        note("axe-core isn't there (tools/axe-core writes it, or AXE_CORE names its file): what it would check is left out")
        return []
    if not browser.execute_script("return Boolean(window.axe)"):
        browser.execute_script(text)
    return browser.execute_async_script(RUN)
