"""A client with a site of its own, which asks for things at random and compares what comes back with what it knows."""
from __future__ import annotations

import copy
import functools
import json
import random
from collections import Counter
from typing import Callable

from soaking import refusals, snapshots
from soaking.knowing import COMPOSITE, Page, Site, compact, page_differs, shows_others, site_differs
from soaking.life import Life
from soaking.ways import Direct, Proxied, Reply

MOST_BODY = 8_388_608
NAMES = ("home", "news", "hours", "search", "outcomes", "a.b_c-d")
MOST_PAGES, MOST_ROWS = 6, 110
VERDICTS = ("passed", "failed", "cantTell")


class Client:
    """One client, its site, and its counts: what it sent, and the differences that it found."""

    def __init__(self, name: str, way: Direct | Proxied, life: Life, seed: str) -> None:
        self.way, self.life, self.chance = way, life, random.Random(f"{seed} {name}")
        self.site = Site(name)
        self.counts: Counter[str] = Counter()
        self.differences: list[str] = []

    def run(self) -> None:
        """Asks until the soak ends, or something differs: what is known then isn't known any more."""
        kinds: list[tuple[Callable[[], None], int]] = [
            (self.put, 8), (self.edit, 10), (self.judge, 6), (self.drop, 2), (self.put_many, 2), (self.look, 8), (self.look_around, 2),
            (self.refused, 8), (self.unread, 4), (self.cut, 4), (self.slow, 2), (self.too_large, 1)]
        calls, weights = zip(*kinds)
        while not self.life.is_over() and not self.differences:
            try:
                self.begin() if not self.site.is_there or not self.site.has_judge else self.chance.choices(calls, weights)[0]()
            except Exception as error:  # a client that breaks off is a difference too
                self.differ(f"the client of {self.site.name} broke off: {error!r}")

    def differ(self, said: str) -> None:
        self.differences.append(f"{self.way.said}: {said}")
        print(f"difference: {self.differences[-1]}", flush=True)

    def ask(self, what: str, line: str, body: bytes, rev: int | None, after: Site, wanted: tuple[int, bytes],
            **more: str) -> None:
        """Asks for a change, after which the site is to be as said, and the reply as wanted."""
        self.settle(what, lambda: self.way.ask(line, body, rev, **more), after, wanted)

    def settle(self, what: str, asking: Callable[[], Reply], after: Site, wanted: tuple[int, bytes]) -> None:
        """Asks for a change. Where no reply came because the desk was killed, the site is as it was or as it is to be."""
        self.counts[what] += 1
        before, began = self.site, self.life.turns
        reply = asking()
        if reply is not None:
            if reply[0] != wanted[0] or not reply[1].startswith(wanted[1]):
                self.differ(f"{what} of {before.name}: {reply[0]} {reply[1][:200]!r}, not {wanted}")
            self.site = after
            return
        if not self.life.was_away(began):
            self.differ(f"{what} of {before.name}: no reply, though nobody killed the desk")
        self.counts["without a reply"] += 1
        if self.compared(lambda: site_differs(self.way, before)) and not self.compared(lambda: site_differs(self.way, after)):
            self.site = after
            self.counts["done without a reply"] += 1
        self.check(lambda: site_differs(self.way, self.site))

    def compared(self, look: Callable[[], str]) -> str:
        """What a look at the desk finds during which there was no kill."""
        while True:
            self.life.wait()
            began = self.life.turns
            found = look()
            if not found or not self.life.was_away(began) or self.life.failed:
                return found

    def check(self, look: Callable[[], str]) -> None:
        """Counts what a look finds as a difference."""
        if found := self.compared(look):
            self.differ(found)

    def begin(self) -> None:
        """Puts the site, and then its judge."""
        after = copy.deepcopy(self.site)
        if not after.is_there:
            after.is_there = True
            self.ask("put site", f"PUT {self.site.path()}", b"", None, after, (201, compact({"site": self.site.name})))
        else:
            after.has_judge = True
            self.ask("put member", f"PUT {self.site.path(end='/members/bob')}", b'{"role":"judge"}', None, after, (200, b'{"member":"bob"'))

    def changed(self, name: str, page: snapshots.Row, site: Site | None = None) -> Site:
        """The site with a page of a new revision."""
        after = copy.deepcopy(site or self.site)
        after.counter += 1
        after.pages[name] = Page(after.counter, page, after.pages[name].judgements if name in after.pages else [])
        return after

    def stored(self, name: str, after: Site) -> tuple[int, bytes]:
        return 200, compact({"page": name, "rev": after.counter})[:-1] + b","

    def page(self) -> str | None:
        """One of the site's pages; None where it has none."""
        return self.chance.choice(sorted(self.site.pages)) if self.site.pages else None

    def rev(self, name: str) -> int:
        return self.site.pages[name].rev if name in self.site.pages else 0

    def put(self) -> None:
        name, page = self.chance.choice(NAMES), snapshots.snapshot(self.chance, self.site.name)
        after = self.changed(name, page)
        self.ask("put page", f"PUT {self.site.path(name)}", compact(page), self.rev(name), after, self.stored(name, after))

    def slow(self) -> None:
        """A put whose bytes come slowly."""
        name, page = self.chance.choice(NAMES), snapshots.snapshot(self.chance, self.site.name)
        after = self.changed(name, page)
        line, rev = f"PUT {self.site.path(name)}", self.rev(name)
        self.settle("slow put", lambda: self.way.slow(line, compact(page), rev, self.chance), after, self.stored(name, after))

    def put_many(self) -> None:
        """An import of some pages."""
        names = self.chance.sample(NAMES, self.chance.randint(1, 4))
        after, entries = self.site, []
        for name in names:
            page = snapshots.snapshot(self.chance, self.site.name, 10)
            after = self.changed(name, page, after)
            entries.append({"page": name, "rev": self.rev(name), "snapshot": page})
        self.ask("import", f"POST {self.site.path(end='/import')}", compact({"pages": entries}), None, after, (200, b'{"pages":['))

    def edit(self) -> None:
        name = self.page()
        if name is None or len(self.site.pages[name].snapshot["nodes"]) > MOST_ROWS:
            return self.put()
        found, page = snapshots.edits(self.chance, self.site.pages[name].snapshot)
        after = self.changed(name, page)
        self.ask("edit", f"POST {self.site.path(name, '/edits')}", compact({"edits": found}), self.rev(name), after, self.stored(name, after))

    def drop(self) -> None:
        if (name := self.page()) is not None:
            after = copy.deepcopy(self.site)
            del after.pages[name]
            self.ask("drop", f"DELETE {self.site.path(name)}", b"", self.rev(name), after, (200, compact({"page": name})))

    def judge(self) -> None:
        """Judges an outcome that the rule leaves open, as another one than who sent the page."""
        if (name := self.page()) is None:
            return
        reply = self.way.ask(f"GET {self.site.path(name, '/outcomes')}")
        if reply is None or reply[0] != 200:
            return
        rows = [row for row in json.loads(reply[1])["outcomes"] if row["automatic"] == "cantTell" and row["rule"] != COMPOSITE]
        if not rows:
            return
        row, verdict = self.chance.choice(rows), self.chance.choice(VERDICTS)
        after = copy.deepcopy(self.site)
        one = (row["rule"], row["node"], verdict, "bob", row["digest"])
        after.pages[name].judgements.append(one)
        body = compact({"rule": row["rule"], "node": row["node"], "verdict": verdict, "digest": row["digest"]})
        wanted = compact({"node": row["node"], "outcome": verdict, "rule": row["rule"]})
        self.ask("judgement", f"POST {self.site.path(name, '/judgements')}", body, None, after, (200, wanted), caller="bob")

    def look(self) -> None:
        """A page as it is known."""
        if (name := self.page()) is not None:
            self.counts["look at a page"] += 1
            self.check(functools.partial(page_differs, self.way, self.site, name))

    def look_around(self) -> None:
        """The whole site, and its reports, in which nothing of another stands."""
        self.counts["look at a site"] += 1
        self.check(lambda: site_differs(self.way, self.site))
        self.check(lambda: shows_others(self.way, self.site))

    def expected(self, what: str, asking: Callable[[], Reply], wanted: refusals.Refusal) -> None:
        """Expects a request to be refused so."""
        status, name = wanted

        def look() -> str:
            reply = asking()
            if reply is None:
                return f"{what}: no reply"
            good = reply[0] == status and f'"refused":"{name}"'.encode() in reply[1]
            return "" if good else f"{what} of {self.site.name}: {reply[0]} {reply[1][:200]!r}, not {wanted}"

        self.counts[f"refused: {what}"] += 1
        self.check(look)

    def refused(self) -> None:
        """A request that is refused for what it asks, and a stranger's."""
        site, name = self.site, self.page()
        page = compact(snapshots.snapshot(self.chance, site.name, 5))
        kinds = [*refusals.of_site(site, page), *(refusals.of_page(site, name) if name is not None else ())]
        what, words, wanted = self.chance.choice(kinds)
        self.expected(what, lambda: self.way.ask(*words), wanted)
        self.expected("a stranger", lambda: self.way.ask(f"GET {site.path(end='/csv')}", caller="eve"), (403, "NotAllowed"))

    def unread(self) -> None:
        """Bytes that are no request, which only the desk itself is sent."""
        if isinstance(self.way, Proxied):
            return self.refused()
        noise = b"\x01" + bytes(self.chance.randrange(1, 256) for _ in range(200)) + b"\r\n\r\n"
        what, sent, wanted = self.chance.choice([*refusals.BYTES, ("bytes at random", noise, (400, "BadHead"))])
        self.expected(what, lambda: self.way.send(sent), wanted)

    def cut(self) -> None:
        """A request that breaks off: nothing is done."""
        self.counts["cut off"] += 1
        page = snapshots.snapshot(self.chance, self.site.name)
        self.way.cut(f"PUT {self.site.path('cut')}", compact(page), self.chance)
        self.expected("what was cut off", lambda: self.way.ask(f"GET {self.site.path('cut')}"), (404, "NoPage"))

    def too_large(self) -> None:
        """A body that is longer than any may be; what of it is sent is no matter."""
        self.expected("too large", lambda: self.way.large(f"PUT {self.site.path('home')}", MOST_BODY + 1), (413, "BodyTooLarge"))
