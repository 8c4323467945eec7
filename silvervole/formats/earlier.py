"""The fingerprints that an earlier run gave, from the JSON that it wrote: a comparison hands them on."""
from __future__ import annotations

import json
import os
from dataclasses import dataclass, field
from typing import Mapping

from silvervole.collect.ends import End, Stop

from .findings_json import FORM
from .fingerprints import Key


@dataclass(frozen=True)
class Earlier:
    """The fingerprints of an earlier run, by the names of the pages' snapshots."""

    pages: Mapping[str, Mapping[Key, str]] = field(default_factory=dict)

    def marks(self, snapshot: str) -> Mapping[Key, str]:
        """The fingerprints of the page with this snapshot, whatever its folder is called now."""
        return self.pages.get(os.path.basename(snapshot), {})


NO_EARLIER = Earlier()


def read_earlier(path: str | None) -> Earlier:
    """What the file has; a Stop with the status INPUT where it isn't the JSON of findings."""
    if path is None:
        return NO_EARLIER
    try:
        with open(path, "rb") as file:
            given = json.load(file)
        if given["form"] != FORM:
            raise ValueError
        names = [os.path.basename(page["snapshot"] or "") for page in given["pages"]]
        pages: dict[str, dict[Key, str]] = {name: {} for name in names if name}
        for finding in (*given["findings"], *given["accepted"]):
            # What is mended has the number of a node that isn't there any more.
            if finding["change"] != "mended" and (name := names[finding["page"]]):
                pages[name][finding["rule"]["id"], finding["node"]] = finding["fingerprint"]
    except OSError as error:
        raise Stop(End.INPUT, f"{path} can't be read: {error.strerror}") from None
    except (ValueError, KeyError, TypeError, IndexError):
        raise Stop(End.INPUT, f"{path} isn't the JSON of findings that --json writes") from None
    return Earlier(pages)
