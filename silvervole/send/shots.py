"""Puts the picture of a page beside the desk, where its proxy keeps pictures."""
from __future__ import annotations

import json

from silvervole.collect.ends import say
from silvervole.desk.asking import Desk
from silvervole.desk.refusals import Refused

from .delivery import Prepared
from .kept import Target

MOST_BYTES = 10 * 1024 * 1024
# Where no proxy stands before the desk, or one without a folder for pictures.
NO_FOLDER = (404, 405)


def put_picture(desk: Desk, prepared: Prepared, revision: int) -> None:
    """Puts the picture of a version and then its boxes, by the numbers that were sent; says so where pictures aren't kept."""
    picture = prepared.version.picture
    if picture is None:
        return
    boxes = {str(prepared.numbers[number]): box for number, box in picture.boxes.items() if number in prepared.numbers}
    told = json.dumps({"rev": revision, "boxes": boxes}, separators=(",", ":")).encode("ascii")
    if max(len(picture.image), len(told)) > MOST_BYTES:
        say("send", f"{prepared.target}: its picture isn't sent: it has more than 10 MiB")
        return
    try:
        desk.ask("PUT", path_of(prepared.target, "png"), picture.image, kind="image/png")
        desk.ask("PUT", path_of(prepared.target, "json"), told)
    except Refused as refused:
        if refused.status not in NO_FOLDER:
            raise
        say("send", f"{prepared.target}: its picture isn't sent: no pictures are kept there")


def path_of(target: Target, kind: str) -> str:
    """The path of a picture, or of its boxes."""
    return f"/shots/{target.site}/{target.page}.{kind}"
