"""Requests to the proxy, as people's programs send them."""
from __future__ import annotations

import base64
import functools
import http.client
import json
import socket
import ssl
from typing import NamedTuple

from serving import HOST

from .proxies import PASSWORD, Proxy

PATIENCE = 120
JSON = "application/json"


class Reply(NamedTuple):
    """A reply's status and body, and its fields in lower case."""

    status: int
    body: bytes
    fields: dict[str, str]

    @property
    def brief(self) -> tuple[int, str]:
        return self.status, self.body.decode("utf-8", "replace")


def basic(user: str, password: str = PASSWORD) -> dict[str, str]:
    """The field by which a user signs in."""
    return {"authorization": "Basic " + base64.b64encode(f"{user}:{password}".encode()).decode()}


@functools.lru_cache
def trusting(certificate: str) -> ssl.SSLContext:
    """What trusts this certificate alone."""
    return ssl.create_default_context(cafile=certificate)


def connection(proxy: Proxy, source: str = HOST) -> http.client.HTTPConnection:
    """A connection to the proxy, by TLS where its example has that."""
    if proxy.example == "sign-on.conf":
        return http.client.HTTPConnection(HOST, proxy.port, timeout=PATIENCE, source_address=(source, 0))
    return http.client.HTTPSConnection(HOST, proxy.port, context=trusting(proxy.certificate), timeout=PATIENCE, source_address=(source, 0))


def reply_over(link: http.client.HTTPConnection, line: str, body: bytes | None, fields: dict[str, str]) -> Reply:
    """The reply to a request such as `GET /sites/acme`, over a connection that may stay open."""
    method, path = line.split()
    link.request(method, path, body, fields)
    found = link.getresponse()
    data = found.read()
    return Reply(found.status, data, {name.lower(): value for name, value in found.getheaders()})


def ask(proxy: Proxy, line: str, body: object = None, fields: dict[str, str] | None = None, source: str = HOST) -> Reply:
    """The reply to a request of one connection; a body that is no bytes is sent as JSON."""
    data = body if body is None or isinstance(body, bytes) else json.dumps(body).encode()
    link = connection(proxy, source)
    try:
        return reply_over(link, line, data, fields or {})
    finally:
        link.close()


def raw(proxy: Proxy) -> socket.socket:
    """A socket to the proxy, by TLS, for bytes of any kind."""
    plain = socket.create_connection((HOST, proxy.port), timeout=PATIENCE)
    return trusting(proxy.certificate).wrap_socket(plain, server_hostname=HOST)
