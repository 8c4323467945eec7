"""The proxy with TLS and HTTP basic before one desk."""
from __future__ import annotations

import http.client
import json
import os
import threading
import time

from serving import HOST, Serving

from ..support import expect, note, same
from .asking import Reply, ask, basic, connection, raw, reply_over
from .packages import PROXY, needs
from .proxies import Proxy
from .samples import PAGE, compact, life, refused

pytestmark = needs(*PROXY)

MOST_BODY = 8_388_608
CLIENTS, SITES_EACH = 16, 1
# How long a request may take beside clients that do nothing: less than the 30 seconds for which the proxy and the desk
# wait for such, so who is held up by one is told from who is slow because the machine is busy.
PROMPT = 25


def let_in(proxy: Proxy) -> None:
    """Who is let in, and that nobody's word for who they are is taken."""
    same("without a name", ask(proxy, "PUT /sites/acme", b"").status, 401)
    same("with a wrong password", ask(proxy, "PUT /sites/acme", b"", basic("ann", "wrong")).status, 401)
    same("a stranger to the proxy", ask(proxy, "PUT /sites/acme", b"", basic("zoe")).status, 401)
    same("the page to judge on without a name", ask(proxy, "GET /").status, 401)
    same("a forged name alone", ask(proxy, "PUT /sites/acme", b"", {"x-caller": "ann"}).status, 401)
    forged = {**basic("ann"), "x-caller": "bob", "X_Caller": "bob"}
    same("a forged name beside another", ask(proxy, "PUT /sites/acme", b"", forged).brief, (201, '{"site":"acme"}'))
    same("the site is the other's", ask(proxy, "GET /sites/acme/pages/home", None, {**basic("bob"), "x-caller": "ann"}).brief,
         (403, refused(13, "NotAllowed", needed="reader")))
    same("and not the forged one's", ask(proxy, "GET /sites/acme/pages/home", None, basic("ann")).brief, (404, refused(14, "NoPage")))
    own = {name: ask(proxy, "GET /memberships", None, {**basic(name), "x-caller": "ann"}) for name in ("ann", "bob")}
    same("whose sites are told", [reply.body for reply in own.values()],
         [b'{"memberships":[{"role":"owner","site":"acme"}]}', b'{"memberships":[]}'])
    foreign = ask(proxy, "PUT /sites/other", b"", {**basic("ann"), "sec-fetch-site": "cross-site"})
    same("a page of another site", foreign.brief, (403, '{"refused":"OtherSite"}'))
    link = http.client.HTTPConnection(HOST, proxy.plain_port, timeout=60)
    moved = reply_over(link, "GET /sites/acme", None, basic("ann"))
    expect("without TLS one is sent on", moved.status == 301 and moved.fields["location"].startswith("https://"), moved)
    link.close()


def sizes(proxy: Proxy) -> None:
    """Bodies up to the desk's limit and one byte more; a body in chunks, which the desk itself doesn't take."""
    ask(proxy, "PUT /sites/sizes", b"", basic("ann"))
    page = json.dumps(PAGE).encode()
    put = {**basic("ann"), "x-rev": "0"}
    full = ask(proxy, "PUT /sites/sizes/pages/full", page + b" " * (MOST_BODY - len(page)), put)
    same("a body of 8 MiB", full.status, 200)
    more = ask(proxy, "PUT /sites/sizes/pages/more", page + b" " * (MOST_BODY + 1 - len(page)), put)
    same("a byte more", more.brief, (413, refused(5, "BodyTooLarge")))
    link = connection(proxy)
    link.request("PUT", "/sites/sizes/pages/chunks", iter([page[:50], page[50:]]), {**put, "transfer-encoding": "chunked"}, encode_chunked=True)
    same("a body in chunks", link.getresponse().status, 200)
    link.close()


def methods(proxy: Proxy) -> None:
    """Methods that no route has don't come to the desk, whose reply to HEAD has a body."""
    for method in ("HEAD", "OPTIONS", "PATCH"):
        wanted = "" if method == "HEAD" else refused(7, "WrongMethod")
        same(f"the method {method}", ask(proxy, f"{method} /sites/acme/report", None, basic("ann")).brief, (405, wanted))
    same("another route's method", ask(proxy, "DELETE /sites/acme/report", None, basic("ann")).brief, (405, refused(7, "WrongMethod")))


def head(line: str, length: int = 0) -> bytes:
    """The head of a request of ann's."""
    return f"{line} HTTP/1.1\r\nhost: desk\r\nauthorization: {basic('ann')['authorization']}\r\ncontent-length: {length}\r\n\r\n".encode()


def prompt(what: str, proxy: Proxy) -> None:
    """Expects that another client is answered at once."""
    began = time.monotonic()
    answered = ask(proxy, "GET /sites/slow/pages/none", None, basic("ann"))
    same(f"beside {what}", answered.brief, (404, refused(14, "NoPage")))
    expect(f"beside {what}, at once", time.monotonic() - began < PROMPT, f"{time.monotonic() - began:.1f} s")


def slow_and_cut(proxy: Proxy) -> None:
    """Clients that send slowly, stop, or don't read don't hold up others."""
    ask(proxy, "PUT /sites/slow", b"", basic("ann"))
    page = json.dumps(PAGE).encode()
    ask(proxy, "PUT /sites/slow/pages/long", page[:-1] + b" " * 4_000_000 + b"}", {**basic("ann"), "x-rev": "0"})
    silent, half, unread = raw(proxy), raw(proxy), raw(proxy)
    prompt("a client that says nothing", proxy)
    half.sendall(head("PUT /sites/cut", 100) + b"half")
    prompt("a client that sends half a body", proxy)
    for _ in range(20):
        unread.sendall(head("GET /sites/slow/pages/long"))
    prompt("a client that doesn't read", proxy)
    for one in (silent, half, unread):
        one.close()
    same("what was cut isn't done", ask(proxy, "GET /sites/cut/pages/home", None, basic("ann")).brief, (404, refused(11, "NoSite")))


def lived(proxy: Proxy, site: str, link: http.client.HTTPConnection) -> list[object]:
    """What of a site's life was answered otherwise than it should be."""
    wrong: list[object] = []
    for caller, line, rev, body, wanted in life(site):
        fields = {**basic(caller), **({"x-rev": str(rev)} if rev is not None else {})}
        data = body if body is None or isinstance(body, bytes) else compact(body).encode()
        got: Reply = reply_over(link, line, data, fields)
        if got.brief != wanted:
            wrong.append((line, got.brief, wanted))
    return wrong


def at_once(proxy: Proxy) -> None:
    """Sixteen clients at once, each with sites of its own: every reply is right. Prints the requests a second."""
    wrong: list[object] = []

    def client(name: str) -> None:
        link = connection(proxy)
        try:
            for place in range(SITES_EACH):
                wrong.extend(lived(proxy, f"{name}-{place}", link))
        except Exception as error:  # a client that breaks off is wrong too
            wrong.append(repr(error))
        finally:
            link.close()

    threads = [threading.Thread(target=client, args=(f"client-{number}",)) for number in range(CLIENTS)]
    began = time.monotonic()
    for thread in threads:
        thread.start()
    for thread in threads:
        thread.join()
    seconds = time.monotonic() - began
    same("replies to sixteen clients that aren't right", wrong[:3], [])
    rate = CLIENTS * SITES_EACH * len(life("x")) / seconds
    note(f"{CLIENTS} clients at once: {rate:.0f} requests a second through the proxy, on a machine with a load of {os.getloadavg()[0]:.0f}")


def test_basic(desk: Serving, proxy: Proxy) -> None:
    """All of the example with TLS and HTTP basic."""
    let_in(proxy)
    sizes(proxy)
    methods(proxy)
    slow_and_cut(proxy)
    at_once(proxy)
    desk.end()
    away = ask(proxy, "GET /sites/acme/pages/home", None, basic("ann"))
    same("the desk is away", away.brief, (503, '{"refused":"DeskAway"}'))


def test_limit(desk: Serving) -> None:
    """The limit on requests: a hundred at once, and then no more than the rate, which is made slow here."""
    with Proxy("basic.conf", [desk.port], "rate=1r/m") as proxy:
        link = connection(proxy)
        taken, told = (404, refused(11, "NoSite")), (429, '{"refused":"TooManyRequests"}')
        began = time.monotonic()
        replies = [reply_over(link, "GET /sites/none/pages/none", None, basic("ann")).brief for _ in range(110)]
        same("a hundred and one requests at once", replies[:101], [taken] * 101)
        # On a busy machine a minute may go by, and with each minute one more is taken.
        more = replies[101:].count(taken)
        expect("who asks too often is told so", replies[101:].count(told) == 9 - more and more <= (time.monotonic() - began) / 60, replies[101:])
        link.close()
