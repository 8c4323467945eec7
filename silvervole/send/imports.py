"""Puts many pages, those of a site in imports; a page that fails stops no other."""
from __future__ import annotations

from collections import defaultdict
from typing import Callable

from silvervole.collect.ends import Stop
from silvervole.desk.asking import Desk
from silvervole.desk.refusals import MOST_BYTES, Refused

from .delivery import MOST_PUTS, Prepared, Sent, import_pages, prepare, send_page, sent
from .kept import Target

# The desk's bound on an import, and what stands around a page in one.
MOST_PAGES, AROUND = 64, 200
# Refusals of a whole import that pages by themselves may not meet.
OF_ALL = (409, 413, 422, 507)


class Imports:
    """Pages that wait for others of their site. `tell` gets each that was put, `fail` each that wasn't and why."""

    def __init__(self, desk: Desk, tell: Callable[[Sent], None], fail: Callable[[Target, Stop], None]) -> None:
        self.desk, self.tell, self.fail = desk, tell, fail
        self.waiting: defaultdict[str, dict[Target, Prepared]] = defaultdict(dict)

    def add(self, prepared: Prepared) -> None:
        """Lets a page wait; where so many do that no import takes one more, those are put first."""
        site = prepared.target.site
        waiting = self.waiting[site].values()
        if len(waiting) == MOST_PAGES or sum(len(one.body) + AROUND for one in (*waiting, prepared)) > MOST_BYTES:
            self.put(site)
        self.waiting[site][prepared.target] = prepared

    def end(self) -> None:
        """Puts all that wait."""
        for site in list(self.waiting):
            self.put(site)

    def put(self, site: str) -> None:
        """Puts the pages of a site that wait, without those that the desk names as wrong."""
        pages = self.waiting.pop(site, {})
        puts: defaultdict[Target, int] = defaultdict(int)
        while len(pages) > 1:
            try:
                revisions = import_pages(self.desk, site, list(pages.values()))
            except Refused as refused:
                if self.mend(Target(site, str(refused.members.get("page", ""))), refused, pages, puts):
                    continue
                if refused.status in OF_ALL:
                    break
                return self.fail_all(pages, refused)
            except Stop as stop:
                return self.fail_all(pages, stop)
            for target, prepared in pages.items():
                self.attempt(target, lambda: sent(self.desk, prepared, revisions[target.page]))
            return None
        for target, prepared in pages.items():
            self.attempt(target, lambda: send_page(self.desk, target, prepared.version))
        return None

    def mend(self, target: Target, refused: Refused, pages: dict[Target, Prepared], puts: dict[Target, int]) -> bool:
        """Makes the page anew that an import was refused for, or takes it out; False where no page of the import is named."""
        if target not in pages:
            return False
        puts[target] += 1
        try:
            if refused.name != "StaleRevision" or puts[target] == MOST_PUTS:
                raise refused
            pages[target] = prepare(self.desk, target, pages[target].version)
        except Stop as stop:
            del pages[target]
            self.fail(target, stop)
        return True

    def attempt(self, target: Target, work: Callable[[], Sent]) -> None:
        """Tells what a page's last step gives, or how it fails."""
        try:
            done = work()
        except Stop as stop:
            self.fail(target, stop)
        else:
            self.tell(done)

    def fail_all(self, pages: dict[Target, Prepared], stop: Stop) -> None:
        """Lets all of some pages fail."""
        for target in pages:
            self.fail(target, stop)
