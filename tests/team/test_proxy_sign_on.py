"""The proxy behind a single-sign-on proxy."""
from __future__ import annotations

from ..support import same
from .asking import ask
from .packages import PROXY, needs
from .proxies import Proxy
from .samples import refused

pytestmark = needs(*PROXY)


def test_sign_on(sign_on: Proxy) -> None:
    """Names come from the single-sign-on proxy's address and in its field alone."""
    ann, bob = ({"x-forwarded-user": f"{name}@example.org"} for name in ("ann", "bob"))
    nobody = (401, refused(8, "NoCaller"))
    same("a person who signed in", ask(sign_on, "PUT /sites/acme", b"", ann).brief, (201, '{"site":"acme"}'))
    same("nobody signed in", ask(sign_on, "PUT /sites/other", b"").brief, nobody)
    same("a forged name alone", ask(sign_on, "PUT /sites/other", b"", {"x-caller": "ann"}).brief, nobody)
    for name in ("ann@elsewhere.org", "Ann@example.org", "ann@example.org@example.org", "a" * 65 + "@example.org", "@example.org"):
        same(f"the name {name[:30]}", ask(sign_on, "PUT /sites/other", b"", {"x-forwarded-user": name}).brief, nobody)
    same("a forged name beside another", ask(sign_on, "GET /sites/acme/pages/home", None, {**bob, "x-caller": "ann"}).brief,
         (403, refused(13, "NotAllowed", needed="reader")))
    same("who comes past the single-sign-on proxy", ask(sign_on, "GET /sites/acme/pages/home", None, ann, source="127.0.0.2").status, 403)
    same("who has signed in sees the page to judge on", ask(sign_on, "GET /rules.json", None, ann).fields.get("x-caller"), "ann")
