"""The ways in which a client reaches a desk: directly, and through the proxy of the example."""
from __future__ import annotations

import http.client
import random
import ssl
import time

from serving import Serving, reply_in, request, told
from tests.team.asking import ask as ask_proxy
from tests.team.asking import basic, raw
from tests.team.proxies import Proxy

AWAY = (503, b'{"refused":"DeskAway"}')
LOST = (OSError, ssl.SSLError, http.client.HTTPException)
Reply = tuple[int, bytes] | None


class Direct:
    """A client that speaks to the desk itself, a connection for each request."""

    said = "directly"

    def __init__(self, desk: Serving) -> None:
        self.desk = desk

    def ask(self, line: str, body: bytes = b"", rev: int | None = None, caller: str | None = "ann") -> Reply:
        """The status and body of a reply; None where there is none."""
        return self.send(request(line, caller, body, rev))

    def send(self, *pieces: bytes, pause: float = 0.0) -> Reply:
        """The reply to bytes that are sent in pieces."""
        try:
            with self.desk.connect() as link:
                for piece in pieces:
                    link.sendall(piece)
                    time.sleep(pause)
                return told(reply_in(link))
        except LOST:
            return None

    def cut(self, line: str, body: bytes, chance: random.Random) -> None:
        """Sends the beginning of a request, and closes."""
        sent = request(line, "ann", body, 0)
        try:
            with self.desk.connect() as link:
                link.sendall(sent[:chance.randrange(len(sent))])
        except LOST:
            pass

    def slow(self, line: str, body: bytes, rev: int, chance: random.Random) -> Reply:
        """The reply to a request that comes in some pieces, with pauses."""
        sent = request(line, "ann", body, rev)
        size = len(sent) // chance.randint(2, 8) + 1
        return self.send(*(sent[at:at + size] for at in range(0, len(sent), size)), pause=chance.uniform(0, 0.05))

    def large(self, line: str, length: int) -> Reply:
        """The reply to a request of so many bytes, of which some are sent."""
        return self.send(f"{line} HTTP/1.1\r\nx-caller: ann\r\nx-rev: 0\r\ncontent-length: {length}\r\n\r\n".encode(), b" " * 100_000)


class Proxied:
    """A client that speaks to the proxy, which it tells its name and password, over TLS."""

    said = "through the proxy"

    def __init__(self, proxy: Proxy) -> None:
        self.proxy = proxy

    def ask(self, line: str, body: bytes = b"", rev: int | None = None, caller: str | None = "ann") -> Reply:
        """The status and body of a reply; None where there is none of the desk."""
        fields = {**(basic(caller) if caller else {}), **({"x-rev": str(rev)} if rev is not None else {})}
        try:
            found = ask_proxy(self.proxy, line, body if body or not line.startswith("GET") else None, fields)
        except LOST:
            return None
        return None if (found.status, found.body) == AWAY else (found.status, found.body)

    def head(self, line: str, length: int, rev: int) -> bytes:
        signed = basic("ann")["authorization"]
        return (f"{line} HTTP/1.1\r\nhost: desk\r\nauthorization: {signed}\r\nx-rev: {rev}\r\nconnection: close\r\n"
                f"content-length: {length}\r\n\r\n").encode()

    def cut(self, line: str, body: bytes, chance: random.Random) -> None:
        """Sends the beginning of a request, and closes."""
        sent = self.head(line, len(body), 0) + body
        try:
            with raw(self.proxy) as link:
                link.sendall(sent[:chance.randrange(len(sent))])
        except LOST:
            pass

    def slow(self, line: str, body: bytes, rev: int, chance: random.Random) -> Reply:
        """The reply to a request that comes in some pieces, with pauses."""
        sent = self.head(line, len(body), rev) + body
        size = len(sent) // chance.randint(2, 20) + 1
        return self.send(*(sent[at:at + size] for at in range(0, len(sent), size)), pause=chance.uniform(0, 0.1))

    def large(self, line: str, length: int) -> Reply:
        """The reply to a request of so many bytes, of which some are sent."""
        return self.send(self.head(line, length, 0), b" " * 100_000)

    def send(self, *pieces: bytes, pause: float = 0.0) -> Reply:
        """The reply to bytes that are sent in pieces."""
        try:
            with raw(self.proxy) as link:
                for piece in pieces:
                    link.sendall(piece)
                    time.sleep(pause)
                found = http.client.HTTPResponse(link)
                found.begin()
                reply = found.status, found.read()
        except LOST:
            return None
        return None if reply == AWAY else reply
