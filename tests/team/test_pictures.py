"""Pictures of pages, which nginx takes from editors and owners and gives to members alone."""
from __future__ import annotations

import pathlib
import socket

from serving import HOST, Serving

from ..support import expect, same
from .asking import ask, basic
from .packages import PROXY, needs
from .proxies import Proxy
from .reader import signed_in
from .samples import PAGE, compact, refused
from .test_proxy_many import SITES

pytestmark = needs(*PROXY)

MOST = 10 * 1024 * 1024
PNG = b"\x89PNG\r\n\x1a\n and more"
BOXES = b'{"rev":1,"boxes":{"3":[0,0,10,10]}}'
ANN, NOBODY = signed_in("ann"), signed_in(None)
ROLES = {"ed": "editor", "bob": "judge", "rea": "reader"}
PICTURE, BOXES_AT = "/shots/acme/home.png", "/shots/acme/home.json"


def fill(proxy: Proxy, site: str = "acme") -> None:
    """A site of ann's with a page."""
    same(f"the site {site}", ask(proxy, f"PUT /sites/{site}", b"", ANN).status, 201)
    same("the page", ask(proxy, f"PUT /sites/{site}/pages/home", PAGE, {**ANN, "x-rev": "0"}).status, 200)
    for name, role in ROLES.items():
        ask(proxy, f"PUT /sites/{site}/members/{name}", {"role": role}, ANN)


def no_folder(proxy: Proxy) -> None:
    """Where there is no folder, nothing is taken and nothing shown."""
    for line, body in (("PUT " + PICTURE, PNG), ("GET " + PICTURE, None)):
        same(f"{line} without a folder", ask(proxy, line, body, ANN).brief, (404, '{"refused":"NoFolder"}'))


def taken(proxy: Proxy, folder: pathlib.Path) -> None:
    """Who may put a picture, and that nothing of the desk has changed."""
    before = ask(proxy, "GET /sites/acme/pages/home", None, ANN).body
    no_editor = (403, refused(13, "NotAllowed", needed="editor"))
    for name in ("bob", "rea", "eve"):
        same(f"{name} puts a picture", ask(proxy, "PUT " + PICTURE, PNG, signed_in(name)).brief, no_editor)
    same("nobody puts a picture", ask(proxy, "PUT " + PICTURE, PNG, NOBODY).brief, (401, refused(8, "NoCaller")))
    foreign = ask(proxy, "PUT " + PICTURE, PNG, {**ANN, "sec-fetch-site": "cross-site"})
    same("a page of another site puts a picture", foreign.brief, (403, '{"refused":"OtherSite"}'))
    same("of a page that isn't there", ask(proxy, "PUT /shots/acme/gone.png", PNG, ANN).brief, no_editor)
    same("of a site that isn't there", ask(proxy, "PUT /shots/gone/home.png", PNG, ANN).brief, no_editor)
    same("then there is none", list(folder.rglob("*.*")), [])
    same("an owner puts a picture", ask(proxy, "PUT " + PICTURE, PNG, ANN).status, 201)
    same("an editor puts the boxes", ask(proxy, "PUT " + BOXES_AT, BOXES, signed_in("ed")).status, 201)
    same("and another picture in its place", ask(proxy, "PUT " + PICTURE, PNG + b"!", signed_in("ed")).status, 204)
    same("there is one", sorted(str(path.relative_to(folder)) for path in folder.rglob("*.*")), ["acme/home.json", "acme/home.png"])
    same("the desk's page is as it was", ask(proxy, "GET /sites/acme/pages/home", None, ANN).body, before)


def given(proxy: Proxy) -> None:
    """Who gets a picture, and as what."""
    for name in ("ann", "ed", "bob", "rea"):
        got = ask(proxy, "GET " + PICTURE, None, signed_in(name))
        same(f"{name} gets the picture", (got.status, got.body, got.fields.get("content-type")), (200, PNG + b"!", "image/png"))
    got = ask(proxy, "GET " + BOXES_AT, None, signed_in("rea"))
    same("and the boxes", (got.status, got.body, got.fields.get("content-type")), (200, BOXES, "application/json"))
    same("it is asked for each time, and taken for nothing else", (got.fields.get("cache-control"), got.fields.get("x-content-type-options")), ("no-cache", "nosniff"))
    no_reader = (403, refused(13, "NotAllowed", needed="reader"))
    same("a stranger", ask(proxy, "GET " + PICTURE, None, signed_in("eve")).brief, no_reader)
    same("a forged name", ask(proxy, "GET " + PICTURE, None, {**signed_in("eve"), "x-caller": "ann"}).brief, no_reader)
    same("nobody", ask(proxy, "GET " + PICTURE, None, NOBODY).brief, (401, refused(8, "NoCaller")))
    same("the question to the desk is none of a client's", ask(proxy, "GET /act-desk-shot", None, ANN).status, 403)
    same("a page without a picture", ask(proxy, "GET /shots/acme/home.jpg", None, ANN).status, 404)
    ask(proxy, "PUT /sites/acme/pages/news", PAGE, {**ANN, "x-rev": "0"})
    same("another without", ask(proxy, "GET /shots/acme/news.png", None, ANN).brief, (404, '{"refused":"NoPicture"}'))
    for method in ("POST", "DELETE"):
        same(f"the method {method}", ask(proxy, f"{method} {PICTURE}", b"", ANN).brief, (405, refused(7, "WrongMethod")))


def sizes(proxy: Proxy) -> None:
    """A picture of 10 MiB is taken, and of one more byte isn't."""
    same("10 MiB", ask(proxy, "PUT " + PICTURE, bytes(MOST), ANN).status, 204)
    same("10 MiB and a byte", ask(proxy, "PUT " + PICTURE, bytes(MOST + 1), ANN).brief, (413, refused(5, "BodyTooLarge")))
    same("the one before is still there", len(ask(proxy, "GET " + PICTURE, None, ANN).body), MOST)


def answer_to(proxy: Proxy, target: str, body: bytes) -> bytes:
    """The status line of the reply to a put of ann's whose target goes as it is."""
    with socket.create_connection((HOST, proxy.port), timeout=30) as link:
        link.sendall(b"PUT " + target.encode() + b" HTTP/1.1\r\nhost: desk\r\nconnection: close\r\nx-forwarded-user: ann@example.org\r\n"
                     + f"content-length: {len(body)}\r\n\r\n".encode() + body)
        return link.makefile("rb").readline()


def names(proxy: Proxy, folder: pathlib.Path) -> None:
    """Names as the desk takes them make files within the folder, and no others make any."""
    odd = "...-_"
    ask(proxy, f"PUT /sites/acme/pages/{odd}", PAGE, {**ANN, "x-rev": "0"})
    same("a page of an odd name", ask(proxy, f"PUT /shots/acme/{odd}.png", PNG, ANN).status, 201)
    for site in ("..", "."):
        ask(proxy, f"PUT /sites/{site}", b"", ANN)
        ask(proxy, f"PUT /sites/{site}/pages/home", PAGE, {**ANN, "x-rev": "0"})
    ask(proxy, "PUT /sites/acme/pages/..", PAGE, {**ANN, "x-rev": "0"})
    for target in ("/shots/../home.png", "/shots/%2e%2e/home.png", "/shots/./home.png", "/shots/acme/%2e%2e%2fhome.png", "/shots/acme/../../home.png",
                   "/shots/..%2f..%2fhome.png", "/shots/acme/a/home.png", "/shots/Acme/home.png", "/shots/acme/ho%00me.png", "/shots/acme/home.png/",
                   f"/shots/acme/{'a' * 65}.png", "/shots/acme/.png", "/shots//home.png", "/shots/acme/home.html"):
        line = answer_to(proxy, target, PNG)
        expect(f"no file of {target}", line.split()[1:2] in ([b"403"], [b"404"], [b"405"], [b"400"]), line)
    same("a page named by two dots", ask(proxy, "PUT /shots/acme/...png", PNG, ANN).status, 201)
    same("files", sorted(str(path.relative_to(folder)) for path in proxy.shots.rglob("*") if path.is_file()),
         ["acme/...-_.png", "acme/...png", "acme/home.json", "acme/home.png"])


def faults(proxy: Proxy, desk: Serving, folder: pathlib.Path) -> None:
    """A folder that can't be written, and a desk that is away."""
    ask(proxy, "PUT /sites/full", b"", ANN)
    ask(proxy, "PUT /sites/full/pages/home", PAGE, {**ANN, "x-rev": "0"})
    (folder / "full").write_bytes(b"")
    same("where there can be no folder of the site", ask(proxy, "PUT /shots/full/home.png", PNG, ANN).brief, (507, '{"refused":"FolderFault"}'))
    desk.end()
    for line, body in (("PUT " + PICTURE, PNG), ("GET " + PICTURE, None)):
        same(f"{line} without a desk", ask(proxy, line, body, ANN).brief, (503, '{"refused":"DeskAway"}'))


def test_shots(desk: Serving, sign_on: Proxy) -> None:
    """Pictures before one desk."""
    fill(sign_on)
    no_folder(sign_on)
    folder = sign_on.make_shots()
    taken(sign_on, folder)
    given(sign_on)
    sizes(sign_on)
    names(sign_on, folder)
    same("of a page that is dropped", [ask(sign_on, "DELETE /sites/acme/pages/home", None, {**ANN, "x-rev": "1"}).status,
                                       ask(sign_on, "GET " + PICTURE, None, ANN).status], [200, 403])
    faults(sign_on, desk, folder)


def test_shots_by_password(proxy: Proxy) -> None:
    """Behind HTTP basic, whose names nginx itself knows."""
    proxy.make_shots()
    ann, eve = basic("ann"), basic("eve")
    ask(proxy, "PUT /sites/acme", b"", ann)
    ask(proxy, "PUT /sites/acme/pages/home", PAGE, {**ann, "x-rev": "0"})
    same("a picture behind a password", [ask(proxy, "PUT " + PICTURE, PNG, ann).status, ask(proxy, "GET " + PICTURE, None, ann).body,
                                         ask(proxy, "GET " + PICTURE, None, eve).status, ask(proxy, "GET " + PICTURE).status], [201, PNG, 403, 401])


def test_shots_of_many() -> None:
    """Before three desks, the one that has the site is asked."""
    with Serving(connections=1_000_000) as one, Serving(connections=1_000_000) as two, Serving(connections=1_000_000) as three:
        with Proxy("sign-on.conf", [one.port, two.port, three.port]) as proxy:
            proxy.make_shots()
            for site in (f"site-{number}" for number in range(SITES)):
                fill(proxy, site)
                body = compact({"site": site}).encode()
                same(f"the boxes of {site}", [ask(proxy, f"PUT /shots/{site}/home.json", body, ANN).status,
                                              ask(proxy, f"GET /shots/{site}/home.json", None, signed_in("rea")).brief,
                                              ask(proxy, f"GET /shots/{site}/home.json", None, signed_in("eve")).status], [201, (200, body.decode()), 403])
