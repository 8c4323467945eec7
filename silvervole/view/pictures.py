"""The part of a page's picture around a node."""
from __future__ import annotations

import json
from dataclasses import dataclass
from typing import Iterable

from silvervole.collect.ends import End, Stop

from .page import Node

SIGNATURE = b"\x89PNG\r\n\x1a\n"
MARGIN = 40
LEAST_WIDTH, LEAST_HEIGHT, GREATEST_HEIGHT = 360, 120, 640
Box = tuple[int, int, int, int]


@dataclass(frozen=True)
class Crop:
    """A part of the picture, and in it the outline of an element; whole pixels, and percentages for CSS."""

    width: int
    height: int
    size: str
    position: str
    outline: str
    of: Node


@dataclass(frozen=True)
class Picture:
    """The picture of a page, and the boxes of its nodes."""

    data: str
    width: int
    height: int
    boxes: dict[int, Box]

    def crop(self, node: Node) -> Crop | None:
        """The part around the node, or around the nearest element above it that is drawn; None for the page as a whole."""
        at: Node | None = node
        while at is not None and at.parent is not None and at.folded != "body":
            box = self.boxes.get(at.number)
            if box is not None and self.holds(box):
                return self.around(box, at)
            at = at.parent
        return None

    def holds(self, box: Box) -> bool:
        """Whether some of the box lies in the picture."""
        x, y, width, height = box
        return x < self.width and y < self.height and x + width > 0 and y + height > 0

    def around(self, box: Box, node: Node) -> Crop:
        """The part of the picture around a box."""
        left, width = span(box[0], box[2], self.width, LEAST_WIDTH, self.width)
        top, height = span(box[1], box[3], self.height, LEAST_HEIGHT, GREATEST_HEIGHT)
        position = f"{percent(left, self.width - width)} {percent(top, self.height - height)}"
        outline = (f"left:{percent(box[0] - left, width)};top:{percent(box[1] - top, height)};"
                   f"width:{percent(box[2], width)};height:{percent(box[3], height)}")
        return Crop(width, height, f"{percent(self.width, width)} {percent(self.height, height)}", position, outline, node)


def span(start: int, length: int, whole: int, least: int, most: int) -> tuple[int, int]:
    """Where a part begins and how long it is, in one direction: the box and a margin, within the picture."""
    wanted = min(max(length + 2 * MARGIN, least), most, whole)
    spare = max(wanted - length, 2 * MARGIN)
    return max(0, min(start - spare // 2, whole - wanted)), wanted


def percent(part: int, whole: int) -> str:
    """A share in per cent, 0 of nothing."""
    return f"{100 * part / whole:.4f}%" if whole else "0%"


def read_box(given: Iterable[float]) -> Box:
    """The box of a node; a ValueError where it isn't one of four numbers."""
    left, top, width, height = map(int, given)
    return left, top, width, height


def read_picture(path: str, snapshot: bytes) -> Picture:
    """The picture that the collector wrote for this snapshot, with its boxes, or a Stop."""
    try:
        with open(path, "rb") as file:
            image = file.read()
        with open(f"{path}.json", "rb") as file:
            boxes = file.read()
    except OSError as error:
        raise no_picture(path, f"{error.filename} can't be read: {error.strerror}") from None
    return picture_of(image, boxes, snapshot, path)


def picture_of(image: bytes, boxes: bytes, snapshot: bytes, path: str) -> Picture:
    """The picture that these bytes are, of this snapshot, or a Stop; its boxes are JSON, as the collector writes it beside the picture."""
    import base64
    import hashlib  # only here, since it loads slowly
    try:
        told = json.loads(boxes)
        read = {int(number): read_box(box) for number, box in told["boxes"].items()}
        width, height, digest = int(told["width"]), int(told["height"]), told["snapshot"]
    except (ValueError, KeyError, TypeError, AttributeError):
        raise no_picture(path, f"{path}.json isn't as --shot writes it") from None
    if not image.startswith(SIGNATURE):
        raise no_picture(path, "it isn't in PNG")
    if digest != hashlib.sha256(snapshot).hexdigest():
        raise no_picture(path, "it was made with another snapshot")
    if width < 1 or height < 1:
        raise no_picture(path, f"{path}.json isn't as --shot writes it")
    return Picture(base64.b64encode(image).decode("ascii"), width, height, read)


def no_picture(path: str, why: str) -> Stop:
    """The refusal of a picture."""
    return Stop(End.INPUT, f"{path} is no picture of this page: {why}")
