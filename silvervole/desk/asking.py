"""Requests to a desk, and its replies."""
from __future__ import annotations

import ipaddress
import json
import os
import re
import ssl
import time
import urllib.parse
from dataclasses import dataclass
from typing import Any

from silvervole.collect.ends import End, Stop, first_line, quiet_libraries

from .refusals import Refused, members_of

# What is away for a moment, or wants to be asked less often.
PASSING = (429, 502, 503, 504)
MOST_TRIES, LONGEST_WAIT = 5, 30
CONNECT_SECONDS, REPLY_SECONDS = 10, 300
NAME = re.compile(r"[a-z0-9._-]{1,64}")


@dataclass(frozen=True)
class Access:
    """How a desk is reached: its address, the caller's name where no proxy stands before it, the name and the password where one
    does, and the file of the authorities that vouch for it."""

    address: str
    caller: str | None = None
    sign_in: tuple[str, str] | None = None
    authorities: str | None = None


def address_of(text: str) -> str:
    """The address of a desk without a slash at its end; a Stop where it is none, or holds a name or a password."""
    parts = urllib.parse.urlsplit(text)
    if parts.scheme not in ("http", "https") or not parts.hostname or parts.query or parts.fragment:
        raise Stop(End.USAGE, "the desk's address is one of http or https, as https://desk.example.org")
    if "@" in parts.netloc:
        raise Stop(End.USAGE, "the desk's address holds a name or a password, which others could see")
    return text.rstrip("/")


def check_authorities(file: str | None) -> None:
    """Refuses a file of authorities that can't be read as one."""
    try:
        ssl.create_default_context(cafile=file)
    except OSError as error:
        raise Stop(End.USAGE, f"--ca {file} can't be read: {error.strerror or error}") from None


def is_here(host: str) -> bool:
    """Whether a host is this machine."""
    try:
        return ipaddress.ip_address(host).is_loopback
    except ValueError:
        return host == "localhost"


class Desk:
    """A desk that is asked over HTTP."""

    def __init__(self, access: Access) -> None:
        quiet_libraries()
        import urllib3

        self.access = access
        # Once it was away for so many tries, it is asked but once at a time until it is there again.
        self.tries = MOST_TRIES
        self.fields = {"connection": "close"}
        parts = urllib.parse.urlsplit(access.address)
        if access.caller is not None:
            self.fields["x-caller"] = access.caller
        if access.sign_in is not None:
            if parts.scheme == "http" and not is_here(parts.hostname or ""):
                raise Stop(End.USAGE, "a password is sent by https alone")
            self.fields.update(urllib3.make_headers(basic_auth=":".join(access.sign_in)))
        check_authorities(access.authorities)
        self.pool = urllib3.PoolManager(ca_certs=access.authorities, timeout=urllib3.Timeout(connect=CONNECT_SECONDS, read=REPLY_SECONDS))

    def get(self, path: str) -> bytes:
        """The reply to a request for what is kept; a Refused where it is refused."""
        return self.ask("GET", path)

    def ask(self, method: str, path: str, body: bytes | None = None, revision: int | None = None, kind: str = "application/json") -> bytes:
        """The reply to a request; a Refused where it is refused, at once or, where the desk is away or is asked too often, in the end."""
        fields = {**self.fields, **({"x-rev": str(revision)} if revision is not None else {}),
                  **({"content-type": kind} if body is not None else {})}
        for tried in range(1, self.tries + 1):
            status, told, data = self.send(method, path, body, fields)
            if status not in PASSING or tried == self.tries:
                break
            time.sleep(wait_of(told, tried))
        self.tries = 1 if status in PASSING else MOST_TRIES
        if 300 <= status < 400:
            raise Stop(End.DESK, f"the desk sends on to {told.get('location', 'nowhere')}: give that address")
        if status >= 400:
            raise Refused(status, members_of(data), tried)
        return data

    def send(self, method: str, path: str, body: bytes | None, fields: dict[str, str]) -> tuple[int, Any, bytes]:
        """The status, the fields and the body of the reply to one request; a Stop where there is none."""
        from urllib3.exceptions import HTTPError, SSLError

        try:
            reply = self.pool.request(method, f"{self.access.address}{path}", body=body, headers=fields, retries=False, redirect=False)
        except SSLError as error:
            raise Stop(End.DESK, f"the desk's certificate isn't trusted; --ca names a file of who vouches for it: {first_line(error)}") from None
        except HTTPError as error:
            # The library begins with the object that it connects by.
            told = re.sub(r"^<[^>]*>: ", "", first_line(error))
            raise Stop(End.DESK, f"the desk at {self.access.address} can't be reached: {told}") from None
        return reply.status, reply.headers, reply.data


def wait_of(fields: Any, tried: int) -> float:
    """How many seconds to wait before the next try: as the reply says, or longer each time."""
    told = fields.get("retry-after", "")
    return min(int(told) if re.fullmatch(r"[0-9]{1,5}", told) else 2 ** (tried - 1), LONGEST_WAIT)


def object_of(body: bytes) -> dict[str, Any]:
    """The object that a reply holds; a Stop where it is none."""
    try:
        told = json.loads(body)
    except (ValueError, RecursionError):
        told = None
    if not isinstance(told, dict):
        raise Stop(End.DESK, "the reply is no desk's")
    return told


def desk_address(given: str | None) -> str:
    """The address of --desk, or of the variable SILVERVOLE_DESK; a Stop where there is neither."""
    address = given or os.environ.get("SILVERVOLE_DESK")
    if not address:
        raise Stop(End.USAGE, "--desk ADDRESS is needed, or the variable SILVERVOLE_DESK")
    return address_of(address)
