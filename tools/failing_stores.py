"""Runs over stores with each allocation failing in turn, for tools/fail-allocations: the desk while it serves a script, and
the program while it makes or opens a store."""
import json
import mmap
import os
import struct
import subprocess
import tempfile

from serving import PROGRAM, Serving, reply_in, request, told
from stores import FILES, ran, set_back

HOME = "/sites/acme/pages/home"
# The word for the book of forty, before the store.
FORTY = ("forty",)
OUT_OF_MEMORY = (507, b'{"number":24,"refused":"OutOfMemory"}')
WANTS_MEMORY = (8, "", "no memory\n")
# How many differences of one run are printed at the most.
MOST_SAID = 3


class Countdown:
    """The number of the allocation that is to fail next, which the program shares."""

    def __init__(self, folder):
        self.path = os.path.join(folder, "next")
        with open(self.path, "wb") as file:
            file.write(bytes(8))
        with open(self.path, "r+b") as file:
            self.shared = mmap.mmap(file.fileno(), 8)

    def set(self, number):
        self.shared[:] = struct.pack("q", number)

    def is_reached(self):
        """Whether the allocation that was to fail has failed."""
        return struct.unpack("q", self.shared[:])[0] <= 0

    def settings(self, preloaded):
        return {"LD_PRELOAD": preloaded, "FAIL_NEXT": self.path}


class Counts:
    """How often it was as with memory, how often memory was wanted, and other ends, of which the first are printed."""

    def __init__(self, name):
        self.name, self.counts = name, [0, 0, 0]

    def add(self, kind):
        self.counts[kind] += 1

    def differ(self, said):
        self.counts[2] += 1
        if self.counts[2] <= MOST_SAID:
            print(f"{self.name}: {said}", flush=True)


def ask(desk, line, caller="ann", body=b"", rev=None):
    """The status and body of a reply over a connection of its own; None where not all of one came."""
    try:
        with desk.connect() as link:
            link.sendall(request(line, caller, body, rev))
            return told(reply_in(link))
    except ConnectionError:
        return None


def snapshot(words):
    rows = [{"n": 1, "p": None, "tag": "html", "attrs": [["lang", "en"]]}, {"n": 2, "p": 1, "tag": "title"},
            {"n": 3, "p": 2, "text": words}, {"n": 4, "p": 1, "tag": "button", "attrs": [["aria-label", words]]}]
    return {"url": "https://example.org/", "nodes": rows}


def encoded(value):
    return json.dumps(value).encode()


class Script:
    """The requests of the script, each made for what the desk has at that time."""

    def __init__(self, desk):
        self.desk = desk

    def rev(self, page):
        """The revision that the desk has of a page; 0 where it hasn't the page."""
        reply = ask(self.desk, f"GET /sites/acme/pages/{page}")
        return json.loads(reply[1])["rev"] if reply and reply[0] == 200 else 0

    def edits(self):
        words = f"Hours {self.rev('home')}"
        return {"body": encoded({"edits": [{"op": "setText", "node": 3, "text": words}]}), "rev": self.rev("home")}

    def judgement(self):
        """The first judgement of a page that is put anew: each that is accepted, also where an allocation fails, would make the next
        request ask for more memory."""
        ask(self.desk, f"DELETE {HOME}", rev=self.rev("home"))
        ask(self.desk, f"PUT {HOME}", body=encoded(snapshot("Hours")), rev=0)
        rows = json.loads(ask(self.desk, f"GET {HOME}/outcomes")[1])["outcomes"]
        row = next(row for row in rows if row["automatic"] == "cantTell")
        return {"caller": "bob", "body": encoded({"rule": row["rule"], "node": row["node"], "verdict": "passed", "digest": row["digest"]})}

    def pages(self):
        entries = [{"page": page, "rev": self.rev(page), "snapshot": snapshot(page)} for page in ("one", "two")]
        return {"body": encoded({"pages": entries})}

    def steps(self):
        """Each request: its line, what else it is sent with, and the status of its reply."""
        bob = b'{"role":"judge"}'
        yield "PUT /sites/acme", dict, (201, 409)
        yield "PUT /sites/acme/members/bob", lambda: {"body": bob}, (200,)
        yield f"PUT {HOME}", lambda: {"body": encoded(snapshot("Hours")), "rev": self.rev("home")}, (200,)
        yield f"PUT {HOME}", lambda: {"body": encoded(snapshot("Hours")), "rev": self.rev("home")}, (200,)
        yield f"POST {HOME}/edits", self.edits, (200,)
        yield f"POST {HOME}/judgements", self.judgement, (200,)
        yield f"POST {HOME}/edits", lambda: {"body": encoded({"edits": []}), "rev": 77}, (409,)
        yield "POST /sites/acme/import", self.pages, (200,)
        for end in ("", "/outcomes", "/report", "/earl", "/names", "/verdicts"):
            yield f"GET {HOME}{end}", dict, (200,)
        for end in ("report", "csv", "earl", "members"):
            yield f"GET /sites/acme/{end}", dict, (200,)
        yield "GET /memberships", dict, (200,)
        yield "PUT /sites/acme/languages", lambda: {"body": encoded({"languages": ["gsw"]})}, (200,)
        yield "DELETE /sites/acme/pages/two", lambda: {"rev": self.rev("two")}, (200, 404)


def shown(desk):
    """What a desk shows of its site: its reports, and the pages with their outcomes."""
    lines = ["/sites/acme/report", "/sites/acme/csv", HOME, f"{HOME}/outcomes", "/sites/acme/pages/one", "/sites/acme/pages/two"]
    return [ask(desk, f"GET {line}", caller) for line in lines for caller in ("ann", "bob")]


class Served:
    """The script, each of its requests with each of the allocations failing that are made from when its connection is taken
    until its reply is there. After a 507 all has to be as before it, and the next request is served."""

    def __init__(self, name, store):
        self.name, self.store = name, store

    def report(self, preloaded):
        """The numbers of replies that are as with memory, that say that memory ran out, and others; says each other."""
        counts = Counts(self.name)
        with tempfile.TemporaryDirectory() as folder:
            countdown = Countdown(folder)
            store = os.path.join(folder, self.store) if self.store != "-" else "-"
            with Serving(workers=2, connections=1_000_000, store=store, settings=countdown.settings(preloaded)) as desk:
                for line, more, statuses in Script(desk).steps():
                    self.each_failing(desk, countdown, counts, line, more, statuses)
                last = ask(desk, "GET /sites/acme/csv")
            if store != "-" and (0, last[1].decode(), "") != (found := ran(PROGRAM, folder, self.store, "csv", "acme")):
                counts.differ(f"the next program reads {found}")
        return counts.counts

    def each_failing(self, desk, countdown, counts, line, more, statuses):
        """Sends a request again and again, each time with the next allocation failing, until none of them fails."""
        number = 0
        while True:
            number += 1
            sent, before = more(), shown(desk)
            countdown.set(number)
            reply = ask(desk, line, **sent)
            reached = countdown.is_reached()
            countdown.set(0)
            after = shown(desk)
            if reply == OUT_OF_MEMORY and after == before:
                counts.add(1)
            elif reply is not None and reply[0] in statuses and None not in after:
                counts.add(0)
            else:
                kept = "as before" if after == before else "not as before"
                counts.differ(f"{line}, allocation {number}: {reply}, and what is shown is {kept}")
            if not reached:
                return


class Opened:
    """A run of the program over a store, with each of its allocations failing: it ends as with memory or wants memory, and the
    next run ends as with memory. Where there is no store before, each run makes one; where that is of another edition, each run
    finds it so. Words for a book stand before the store."""

    def __init__(self, name, words, is_there, edition=None, book=()):
        self.name, self.words, self.is_there, self.edition = name, (*book, "desk.db", *words), is_there, edition

    def report(self, preloaded):
        """The numbers of ends that are as with memory, that want memory, and others; says each other."""
        counts, number, reached = Counts(self.name), 1, True
        with tempfile.TemporaryDirectory() as folder:
            if self.is_there:
                self.fill(folder)
            whole = ran(PROGRAM, folder, *self.words)
            countdown = Countdown(folder)
            while reached:
                self.start_anew(folder)
                countdown.set(number)
                end = self.ran(folder, countdown.settings(preloaded))
                reached = countdown.is_reached()
                counts.add(0) if end == whole else counts.add(1) if end == WANTS_MEMORY else counts.differ(f"allocation {number}: {end}")
                again = ran(PROGRAM, folder, *self.words)
                if again != whole:
                    counts.differ(f"after allocation {number} the next run ends with {again}")
                number += 1
        return counts.counts

    def fill(self, folder):
        with Serving(workers=1, store=os.path.join(folder, "desk.db")) as desk:
            ask(desk, "PUT /sites/acme")
            ask(desk, f"PUT {HOME}", body=encoded(snapshot("Hours")), rev=0)

    def start_anew(self, folder):
        """Takes away the store that the run before made, or sets back its edition."""
        if self.edition is not None:
            set_back(folder, self.edition)
        for name in () if self.is_there else FILES:
            if os.path.exists(os.path.join(folder, name)):
                os.remove(os.path.join(folder, name))

    def ran(self, folder, settings):
        end = subprocess.run([PROGRAM, *self.words], cwd=folder, env=settings, stdin=subprocess.DEVNULL, capture_output=True,
                             timeout=600, check=False)
        return end.returncode, end.stdout.decode(), end.stderr.decode()


RUNS = [Served("a script served from memory", "-"), Served("a script served over a file", "desk.db"),
        Opened("a new store", ("csv", "nobody"), False), Opened("a store that is opened", ("csv", "acme"), True),
        Opened("a store that is audited anew", ("csv", "acme"), True, 1),
        Opened("a store that the book of thirty judged, by that of forty", ("csv", "acme"), True, 3_003, FORTY)]
