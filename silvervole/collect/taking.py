"""Takes the snapshot of the page that a browser shows."""
from __future__ import annotations

import pathlib
from dataclasses import dataclass, field
from typing import Any, NamedTuple

from .ends import End, Stop, first_line

HERE = pathlib.Path(__file__).resolve().parent
SNAPSHOT = HERE / "snapshot.js"
BOXES = HERE / "boxes.js"

# The wrapped call tells a fault of the page from one of the driver. The boxes are
# measured in the same turn, so that no node comes or goes in between.
CALL = """
const [address, wanted] = arguments;
const cuts = [];
let rows = [];
try {
  const text = (%s)(address, { ...wanted, told: (line) => cuts.push(line), nodes: (list) => { rows = list; },
    unheard: (field) => field.dispatchEvent(new Event('change', { bubbles: true })) });
  const frames = rows.flatMap(({ node }, i) => (node instanceof HTMLElement && /^(iframe|frame|object)$/.test(node.localName) && node.contentWindow
    ? [{ node: i + 1, element: node, source: node.getAttribute('src') || node.getAttribute('data') || '' }] : []));
  return { text, cuts, frames: wanted.frames ? frames : [], page: wanted.boxes ? (%s)(rows) : null };
} catch (error) { return { name: String(error && error.name), message: String(error && error.message), cuts }; }
"""
FAULTS = {"SnapshotLimit": (End.LIMIT, "a limit is passed"), "SnapshotAddress": (End.USAGE, "wrong address")}


class Wanted(NamedTuple):
    """How a snapshot is taken: refused where else something is cut; with shadow trees, boxes, the page's frames; of which state and frame."""

    exact: bool = False
    shadow: bool = False
    boxes: bool = False
    frames: bool = False
    state: str | None = None
    frame: int | None = None


@dataclass
class Taken:
    """A snapshot's text, a line for each cut, and where they are wanted the frames, and the page's size and boxes."""

    text: str
    cuts: list[str] = field(default_factory=list)
    frames: list[dict[str, Any]] = field(default_factory=list)
    page: dict[str, Any] | None = None


def take(browser: Any, address: str | None = None, wanted: Wanted = Wanted()) -> Taken:
    """The snapshot of the page that the browser shows, written under the address."""
    from selenium.common.exceptions import InvalidSessionIdException, TimeoutException, WebDriverException

    source = CALL % (SNAPSHOT.read_text(encoding="utf-8"), BOXES.read_text(encoding="utf-8"))
    try:
        answer = browser.execute_script(source, address, wanted._asdict())
    except TimeoutException:
        raise Stop(End.TIME, "the page leaves its browser no time in which it can be read") from None
    except InvalidSessionIdException:
        raise  # the browser ended
    except WebDriverException as error:
        raise Stop(End.DOCUMENT, f"the page can't be read: {first_line(error)}") from None
    if "text" in answer:
        return Taken(answer["text"], answer["cuts"], answer["frames"], answer["page"])
    end, what = FAULTS.get(answer["name"], (End.DOCUMENT, "the page can't be read"))
    raise Stop(end, f"{what}: {answer['message']}")
