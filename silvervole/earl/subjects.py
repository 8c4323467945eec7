"""Which addresses are the page's own, and how one differs that isn't."""
from __future__ import annotations

import urllib.parse
from typing import Iterable

PORTS = {"http": "80", "https": "443"}


def parts_of(address: str) -> urllib.parse.SplitResult:
    """The parts of an address, where two spellings of one address have the same."""
    given = urllib.parse.urlsplit(address)
    scheme, place = given.scheme.lower(), given.netloc.lower()
    if scheme not in PORTS:
        return given
    return given._replace(scheme=scheme, netloc=place.removesuffix(f":{PORTS[scheme]}"), path=given.path or "/")


class Subjects:
    """The address of a page, and those that whoever calls says are the page's too."""

    def __init__(self, address: str, others: Iterable[str] = ()) -> None:
        self.address = address
        self.own = {parts for one in (address, *others) if (parts := parted(one)) is not None}

    def has(self, address: str) -> bool:
        """Whether an address is the page's."""
        return parted(address) in self.own

    def difference(self, address: str) -> str:
        """What else an address is, where it is nearly the page's."""
        given, own = parted(address), parted(self.address)
        if given is None or own is None:
            return ""
        for what, near in (("in its fragment", (given._replace(fragment=""), own._replace(fragment=""))),
                           ("in its query", (given._replace(query=""), own._replace(query=""))),
                           ("in the slash at its end", (slashed(given), slashed(own))),
                           ("in http or https", (given._replace(scheme=""), own._replace(scheme="")))):
            if near[0] == near[1]:
                return f"differs {what} alone; --subject {address} takes it for the page"
        return ""


def parted(address: str) -> urllib.parse.SplitResult | None:
    """The parts of an address; None where it is none."""
    try:
        return parts_of(address)
    except ValueError:
        return None


def slashed(parts: urllib.parse.SplitResult) -> urllib.parse.SplitResult:
    """The parts with a slash at the path's end."""
    return parts._replace(path=f"{parts.path.rstrip('/')}/")
