"""What a judge sees of what they judge: its place in the page, and its picture."""
from __future__ import annotations

import json
import pathlib
import struct
import zlib
from typing import Any

from ..support import expect, same
from .asking import ask
from .packages import BROWSER, PROXY, needs
from .proxies import Proxy
from .reader import Reader, checked, signed_in, size
from .test_page_views import row

pytestmark = needs(*PROXY, *BROWSER)

ANN = signed_in("ann")
WIDTH, HEIGHT = 1000, 500
BOX = [600, 300, 100, 40]
SHOP = [
    row(1, None, "html", lang="en"), row(2, 1, "head", ""), row(3, 2, "title", ""), row(4, 3, " Shop", ""), row(5, 1, "body"),
    row(6, 5, "h1"), row(7, 6, " Shop"), row(8, 5, "p"), row(9, 8, " Open "), row(10, 8, "b"), row(11, 10, " all"), row(12, 8, "  day."),
    row(13, 5, "h2", id="new"), row(14, 13, " New"), row(15, 5, "p"), row(16, 15, " Lamp of brass"),
    row(17, 5, "a", href="/lamp"), row(18, 17, "img", src="lamp.jpg", alt="Lamp"),
    row(19, 5, "div", aria_owns="new gone"), row(20, 19, "h2"), row(21, 20, "img", src="new.png", alt="New things"),
    row(22, 5, "img", src="javascript:alert(1)", alt="")]
FACTS = """
return Object.fromEntries([...document.querySelectorAll('.facts dl > div')].map((one) => [one.firstElementChild.innerText,
  one.lastElementChild.innerText + [...one.querySelectorAll('a')].map((link) => ` <${link.href}>`).join('')]));
"""
# The frame in pixels of the picture, whether its middle is in the part that is shown, and what is said of it.
FRAME = """
const shot = document.querySelector('.shot');
if (!shot) return null;
const [image, mark, crop] = ['img', '.mark', '.crop'].map((one) => shot.querySelector(one)?.getBoundingClientRect());
const scale = shot.querySelector('img').naturalWidth / image.width;
const box = mark && [mark.left - image.left, mark.top - image.top, mark.width, mark.height].map((one) => Math.round(one * scale));
const isIn = mark && mark.left >= crop.left && mark.right <= crop.right && mark.top >= crop.top && mark.bottom <= crop.bottom;
return [box ?? null, isIn ?? null, shot.querySelector('figcaption').innerText];
"""


def png(width: int, height: int) -> bytes:
    """A white picture."""
    def chunk(kind: bytes, data: bytes) -> bytes:
        return struct.pack(">I", len(data)) + kind + data + struct.pack(">I", zlib.crc32(kind + data))
    return (b"\x89PNG\r\n\x1a\n" + chunk(b"IHDR", struct.pack(">IIBBBBB", width, height, 8, 0, 0, 0, 0))
            + chunk(b"IDAT", zlib.compress((b"\0" + b"\xff" * width) * height)) + chunk(b"IEND", b""))


def fill(proxy: Proxy) -> None:
    """A site of ann's with a page, and judges."""
    same("the site", ask(proxy, "PUT /sites/shop", b"", ANN).status, 201)
    ask(proxy, "PUT /sites/shop/members/bob", {"role": "judge"}, ANN)
    page = {"url": "https://shop.example/", "nodes": SHOP}
    same("the page", ask(proxy, "PUT /sites/shop/pages/home", page, {**ANN, "x-rev": "0"}).status, 200)


def look_at(reader: Reader, node: int, rule: str = "b49b2e") -> dict[str, str]:
    """What is said of a finding to judge."""
    reader.open(f"?site=shop&page=home&judge={rule}-{node}")
    return reader.browser.execute_script(FACTS)


def sees_its_place(reader: Reader) -> None:
    """The heading above, what stands around, the path, images with alternative text and address, and a link to the page."""
    same("a heading", look_at(reader, 13), {
        "Heading above": "Shop h1", "In its place": "Shop\nOpen all day.\nNew\nLamp of brass\nLamp\nNew things", "Evidence": "heading\nNew",
        "Start tag": '<h2 id="new">', "CSS path": "#new", "Owned by": '<div aria-owns="new gone"> node 19', "Link": "The page, near this place (#new) <https://shop.example/#new>"})
    same("it is marked among them", reader.text("mark"), "New")
    same("a heading of an image", look_at(reader, 20), {
        "Heading above": "New h2", "In its place": "Shop\nOpen all day.\nNew\nLamp of brass\nLamp\nNew things", "Evidence": "heading\nNew things", "Start tag": "<h2>",
        "Image": "“New things” new.png <https://shop.example/new.png>", "CSS path": "html > body > div > h2", "Link": "The page <https://shop.example/>"})
    same("the page as a whole", look_at(reader, 1, "c4a8a4"), {
        "Evidence": "Shop\nhttps://shop.example/", "Start tag": '<html lang="en">', "Link": "The page <https://shop.example/>"})
    same("without a picture nothing is said of one", reader.browser.execute_script(FRAME), None)
    reader.open("?site=shop&page=home&node=18")
    same("an image among the findings", reader.browser.execute_script(FACTS).get("Image"), "“Lamp” lamp.jpg <https://shop.example/lamp.jpg>")
    reader.open("?site=shop&page=home&node=22")
    same("an address that is none of the web", reader.browser.execute_script(FACTS).get("Image"), "an empty alternative text javascript:alert(1)")


def put_picture(proxy: Proxy, boxes: Any, picture: bytes = png(WIDTH, HEIGHT), rev: int = 1) -> None:
    """Puts the picture and the boxes as an owner."""
    for path, body in (("png", picture), ("json", {"rev": rev, "boxes": boxes})):
        expect("the picture is taken", ask(proxy, f"PUT /shots/shop/home.{path}", body, ANN).status in (201, 204))


def sees_its_picture(reader: Reader) -> None:
    """The part of the picture with a frame, wide and narrow, of this revision and of an older one."""
    around = "The frame is around the element. The whole picture"
    put_picture(reader.proxy, {"13": BOX, "19": [0, 460, 1000, 40]})
    look_at(reader, 13)
    same("the frame", reader.browser.execute_script(FRAME), [BOX, True, around])
    checked(reader, "a picture")
    size(reader.browser, 320, 640)
    same("the frame on 320 pixels", reader.browser.execute_script(FRAME), [BOX, True, around])
    size(reader.browser, 1280, 900)
    same("its text", reader.browser.execute_script("return document.querySelector('.shot img').alt"), "The page around h2, node 13, as it looked")
    look_at(reader, 20)
    same("an element that isn't drawn", reader.browser.execute_script(FRAME)[::2],
         [[0, 460, 1000, 40], "The element itself is not drawn: the frame is around the div that it stands in. The whole picture"])
    look_at(reader, 6)
    same("an element in nothing that is drawn", reader.browser.execute_script(FRAME),
         [None, None, "The element is not drawn. This is the upper part of the page. The whole picture"])
    look_at(reader, 1, "c4a8a4")
    same("the page as a whole", reader.browser.execute_script(FRAME), [None, None, "This is the upper part of the page. The whole picture"])
    checked(reader, "a picture of the page as a whole")


def other_pictures(reader: Reader, folder: pathlib.Path) -> None:
    """A picture of an older revision says so, and one that can't be read isn't shown."""
    edit = {"edits": [{"op": "setText", "node": 16, "text": "Lamp of tin"}]}
    same("the page is edited", ask(reader.proxy, "POST /sites/shop/pages/home/edits", edit, {**ANN, "x-rev": "1"}).status, 200)
    look_at(reader, 13)
    same("an older picture", reader.browser.execute_script(FRAME), [BOX, True, "The frame is around the element. This picture is of an older revision, 1: "
         "what you judge, of revision 2, may look different. The whole picture"])
    checked(reader, "an older picture")
    for what, picture, boxes in (("no picture", b"no picture", {"13": BOX}), ("no boxes", png(WIDTH, HEIGHT), None)):
        put_picture(reader.proxy, boxes, picture)
        same(f"{what}: there is a form", "CSS path" in look_at(reader, 13) and reader.browser.execute_script("return document.forms.length"), 1)
        same(f"{what}: and none is shown", reader.browser.execute_script(FRAME), None)
    put_picture(reader.proxy, {"13": [1, 2, 3]}, rev=2)
    look_at(reader, 13)
    same("a box that is none", reader.browser.execute_script(FRAME)[0], None)
    (folder / "shop" / "home.json").write_text(json.dumps({"rev": 2})[:-2], encoding="utf-8")
    look_at(reader, 13)
    same("boxes that are cut off", reader.browser.execute_script(FRAME), None)


def test_seeing(browser: Any, sign_on: Proxy) -> None:
    """What a judge sees, in a real browser."""
    fill(sign_on)
    reader = Reader(browser, sign_on)
    reader.sign_in("bob")
    sees_its_place(reader)
    folder = sign_on.make_shots()
    sees_its_picture(reader)
    other_pictures(reader, folder)
