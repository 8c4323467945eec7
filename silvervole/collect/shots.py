"""The picture of a whole page, and the boxes of its nodes, for collector/view."""
from __future__ import annotations

import base64
import hashlib
import json
from dataclasses import dataclass
from typing import Any

from .ends import End, Stop, first_line
from .taking import Taken

# Chromium draws no picture that is longer.
LONGEST_SIDE = 16_384


@dataclass(frozen=True)
class Shot:
    """A picture in PNG, and the JSON that says where the nodes are in it."""

    picture: bytes
    boxes: bytes
    cut: str


def take_shot(browser: Any, taken: Taken) -> Shot:
    """The picture of the page whose snapshot was just taken with its boxes."""
    from selenium.common.exceptions import WebDriverException

    page = taken.page or {}
    width, height = (max(1, min(int(page[side]), LONGEST_SIDE)) for side in ("width", "height"))
    try:
        answer = browser.execute_cdp_cmd("Page.captureScreenshot", {
            "format": "png", "captureBeyondViewport": True,
            "clip": {"x": 0, "y": 0, "width": width, "height": height, "scale": 1}})
    except WebDriverException as error:
        raise Stop(End.DOCUMENT, f"the page gives no picture: {first_line(error)}") from None
    cut = ""
    if (width, height) != (page["width"], page["height"]):
        cut = f"the picture holds {width} by {height} pixels of {page['width']} by {page['height']}"
    digest = hashlib.sha256(taken.text.encode("utf-8")).hexdigest()
    told = {"snapshot": digest, "width": width, "height": height, "boxes": page["boxes"]}
    return Shot(base64.b64decode(answer["data"]), (json.dumps(told, separators=(",", ":")) + "\n").encode("ascii"), cut)
