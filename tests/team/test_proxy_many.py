"""Many desks behind one proxy, each with sites of its own."""
from __future__ import annotations

import contextlib
import http.client
from typing import Iterator

from serving import HOST, Serving

from ..support import expect, same
from .asking import basic, connection, reply_over
from .packages import PROXY, needs
from .proxies import Proxy
from .samples import compact, life

pytestmark = needs(*PROXY)

SITES, REQUESTS = 16, 1_000
# So many sites that it can't be chance that one of four desks has none of them.
NEW_SITES = 100


def thousand() -> Iterator[tuple[str, str, int | None, object]]:
    """A thousand requests on sixteen sites, of all sites in turn."""
    lives = [[request[:4] for request in life(f"site-{number}")] for number in range(SITES)]
    places = range(-(-REQUESTS // SITES))
    asked = (lives[number][place % len(lives[number])] for place in places for number in range(SITES))
    return (request for request, _ in zip(asked, range(REQUESTS)))


def answers(link: http.client.HTTPConnection, signed: bool) -> list[tuple[object, ...]]:
    """The replies to the thousand requests: through the proxy, which knows who signed in, or by the desk itself."""
    found: list[tuple[object, ...]] = []
    for caller, line, rev, body in thousand():
        fields = {**(basic(caller) if signed else {"x-caller": caller}), **({"x-rev": str(rev)} if rev is not None else {})}
        data = body if body is None or isinstance(body, bytes) else compact(body).encode()
        found.append(reply_over(link, line, data, fields)[:2])
    return found


def test_many_desks() -> None:
    """The same thousand requests by one desk and through the proxy by three: every reply is the same bytes."""
    with contextlib.ExitStack() as stack:
        one, *three = [stack.enter_context(Serving(workers=1, connections=1_000_000)) for _ in range(4)]
        proxy = stack.enter_context(Proxy("basic.conf", [desk.port for desk in three]))
        alone = answers(http.client.HTTPConnection(HOST, one.port, timeout=120), signed=False)
        spread = answers(connection(proxy), signed=True)
        same("replies of three desks that aren't those of one", [pair for pair in zip(spread, alone) if pair[0] != pair[1]][:2], [])
        same("their number", len(spread), REQUESTS)
        has = [holds(desk) for desk in three]
        expect("the sites are on several desks, and each site has one desk", sum(map(bool, has)) > 1 and sum(map(len, has)) == SITES, has)
        another_joins(three, stack.enter_context(Serving(workers=1, connections=1_000_000)))


def another_joins(three: list[Serving], fourth: Serving) -> None:
    """A desk joins three: the sites that are there stay where they are, and new ones are spread over all four."""
    before = [f"site-{number}" for number in range(SITES)]
    with Proxy("basic.conf", [desk.port for desk in three], joining=fourth.port, before=before) as proxy:
        link = connection(proxy)
        lost = [site for site in before if b"NoSite" in reply_over(link, f"GET /sites/{site}/pages/none", None, basic("ann")).body]
        same("sites that aren't found any more", lost, [])
        for number in range(SITES, SITES + NEW_SITES):
            reply_over(link, f"PUT /sites/site-{number}", b"", basic("ann"))
    has = [holds(desk, range(SITES, SITES + NEW_SITES)) for desk in (*three, fourth)]
    expect("all four have new sites, and each site has one desk", all(has) and sum(map(len, has)) == NEW_SITES, has)


def holds(desk: Serving, numbers: range = range(SITES)) -> list[int]:
    """The sites that a desk holds; to the others it says NoSite."""
    link = http.client.HTTPConnection(HOST, desk.port, timeout=120)
    asked = ((number, reply_over(link, f"GET /sites/site-{number}/pages/none", None, {"x-caller": "ann"})) for number in numbers)
    return [number for number, reply in asked if b"NoSite" not in reply.body]
