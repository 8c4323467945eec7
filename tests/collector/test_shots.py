"""Pictures of pages, and the boxes of their nodes."""
from __future__ import annotations

import hashlib
import json
import os
import struct
from typing import Any

from ..support import PAGES, SITE, collect_here, expect, open_file, page, run, same

# The number that a snapshot gives each element, and its box on the page.
MEASURE = """
const walker = document.createTreeWalker(document, NodeFilter.SHOW_ELEMENT | NodeFilter.SHOW_TEXT);
const boxes = {};
for (let n = 1; walker.nextNode(); n += 1) {
  const node = walker.currentNode;
  const box = node.nodeType === 1 ? node.getBoundingClientRect() : { width: 0 };
  if (box.width > 0 && box.height > 0) boxes[n] = [box.left + scrollX, box.top + scrollY, box.width, box.height];
}
return boxes;
"""


def size_of(picture: bytes) -> tuple[int, int]:
    """The width and the height that a PNG tells."""
    width, height = struct.unpack(">II", picture[16:24])
    return width, height


def fits(told: list[int], measured: list[float]) -> bool:
    """Whether the box in whole pixels is the smallest around the one that was measured."""
    edges = zip((told[0], told[1], -told[0] - told[2], -told[1] - told[3]),
                (measured[0], measured[1], -measured[0] - measured[2], -measured[1] - measured[3]))
    return all(-0.01 < inner - outer < 1.01 for outer, inner in edges)


def test_shot(browser: Any, folder: str) -> None:
    """--shot writes a picture of the whole page and each node's box, and changes no byte of the snapshot."""
    picture = os.path.join(folder, "hours.png")
    code, out, err = run(SITE / "hours.html", "--url", PAGES["hours"], "--shot", picture)
    expect("a page is collected with its picture", code == 0 and err == "", f"status {code}, {err!r}")
    expect("the snapshot is the kept one", out == (SITE / "hours.json").read_bytes())
    with open(picture, "rb") as file:
        image = file.read()
    with open(f"{picture}.json", "rb") as file:
        told = json.loads(file.read())
    same("the picture's size", size_of(image), (told["width"], told["height"]))
    expect("it holds the page below the window too", told["width"] == 1280 and told["height"] > 900, told["height"])
    same("the snapshot's digest", told["snapshot"], hashlib.sha256(out).hexdigest())
    open_file(browser, SITE / "hours.html")
    measured = browser.execute_script(MEASURE)
    off = [n for n, box in measured.items() if n not in told["boxes"] or not fits(told["boxes"][n], box)]
    same("each element's box is where the browser draws it", off, [])


def test_boxes(browser: Any) -> None:
    """Boxes of what has none of its own, and pictures that are too long."""
    written = ("--url", "https://boxes.example/", "--shot", "x.png")
    body = ("<style>body{margin:0} .at{position:absolute}</style>"
            "<div class=at style='left:10px;top:20px'><div id=c style='display:contents'><b class=at style='left:0;top:0;width:30px;height:40px'>x</b></div></div>"
            "<img class=at style='left:100px;top:200px' width=80 height=40 alt=x usemap=#m src='data:image/gif;base64,R0lGODlhAQABAIAAAAAAAP///yH5BAEAAAAALAAAAAABAAEAAAIBRAA7'>"
            "<map name=m><area id=r shape=rect coords=10,5,30,25 href=#><area id=k shape=circle coords=40,20,10 href=#></map>"
            "<p id=n hidden>x</p>")
    with page(body) as path:
        collected = collect_here(browser, path, *written)
        rows = json.loads(collected.text)["nodes"]
        number = {dict(row.get("attrs", [])).get("id"): str(row["n"]) for row in rows}
        assert collected.shot is not None
        boxes = json.loads(collected.shot.boxes)["boxes"]
        same("display: contents, areas, and what isn't drawn", [boxes.get(number[name]) for name in "crkn"],
             [[10, 20, 30, 40], [110, 205, 20, 20], [130, 210, 20, 20], None])
    names = "contentType querySelector querySelectorAll documentElement body location performance createRange".split()
    with page("<p id=p>x" + "".join(f"<img alt='' name={name} id={name}>" for name in names)) as path:
        collected = collect_here(browser, path, *written, "--wait", "#p")
        assert collected.shot is not None
        expect("names of images hide nothing", len(json.loads(collected.shot.boxes)["boxes"]) > 3)
    with page("<div style='height:20000px'>x") as path:
        collected = collect_here(browser, path, *written)
        assert collected.shot is not None
        expect("of a page that is too long the picture holds the front, and says so",
               size_of(collected.shot.picture)[1] == 16384 and "the picture holds 1280 by 16384" in collected.notes[-1], collected.notes)
