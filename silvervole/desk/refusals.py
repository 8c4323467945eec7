"""What the desk and its proxy refuse, in words."""
from __future__ import annotations

import json
from typing import Any

from silvervole.collect.ends import End, Stop

from .signing_in import SOURCES

MOST_BYTES = 8_388_608
NAMES = {
    "NoCaller": "it doesn't know who asks: name yourself by --caller, or sign in at its proxy",
    "NotAllowed": "your role there doesn't allow it: that of {needed} is needed",
    "OtherSite": "the request looks like another site's",
    "NoSite": "it has no such site",
    "NoPage": "it has no such page",
    "NoRoute": "a site, a page or a user has a name of 1 to 64 characters out of a to z, 0 to 9, . _ and -",
    "PageLimit": "the site is full: its limit of {limit} is reached",
    "StaleRevision": "the page was changed by somebody else, to revision {current}",
    "TreeFault": "the page's rows make no tree: fault {fault} at node {node}",
    "NoTarget": "the rule has no outcome there",
    "NotOpen": "the rule tells by itself: {automatic}",
    "SameHand": "you sent the revision that is kept, and nobody judges their own work",
    "EvidenceMoved": "the page's evidence is another by now",
    "OutOfMemory": "it is out of memory",
    "KeeperFault": "what keeps its sites met a fault",
    "DeskAway": "the desk is away",
    "TooManyRequests": "it was asked too often",
}
STATUSES = {
    401: f"it doesn't know this name and password; they are taken from {SOURCES}",
    403: "you may not do that there",
    413: f"a request has at most {MOST_BYTES:,} bytes",
    429: NAMES["TooManyRequests"],
    502: NAMES["DeskAway"], 503: NAMES["DeskAway"], 504: NAMES["DeskAway"],
}


class Refused(Stop):
    """A request that was refused: its status, and the name and the other members of the refusal, where it has them."""

    def __init__(self, status: int, members: dict[str, Any], tries: int) -> None:
        self.status, self.members = status, members
        self.name = str(members.get("refused", ""))
        after = f", also after {tries} tries" if tries > 1 else ""
        super().__init__(End.DESK, f"the desk refuses: {self.words()} ({status}{after})")

    def words(self) -> str:
        """What the refusal means."""
        try:
            known = NAMES[self.name].format(**{name: with_article(value) if name == "needed" else value for name, value in self.members.items()})
        except KeyError:
            known = STATUSES.get(self.status, "")
        page = f"page {self.members['page']}: " if "page" in self.members else ""
        return page + (known or self.name or "nothing more is said")


def with_article(role: object) -> str:
    """A role as a sentence has it."""
    text = str(role)
    return text if text.startswith("another") else f"{'an' if text[:1] in 'aeiou' else 'a'} {text}"


def members_of(body: bytes) -> dict[str, Any]:
    """The members of a refusal; none where the body is no JSON object."""
    try:
        told = json.loads(body)
    except (ValueError, RecursionError):
        return {}
    return told if isinstance(told, dict) else {}
