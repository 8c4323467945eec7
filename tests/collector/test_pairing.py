"""Which element of a page's next version is which of the version before."""
from __future__ import annotations

import json
import subprocess
import sys
import textwrap
from html.parser import HTMLParser

from silvervole.pairing.finding import pair_pages
from silvervole.view.page import Page, read_page

from ..support import ROOT, expect, same

VOID = frozenset(("img", "br", "input", "hr"))
SECONDS, MEGABYTES = 2, 200


class Rows(HTMLParser):
    """The rows of HTML in which each element says its number by the attribute `n`, which isn't kept; texts get numbers from 10,000 on."""

    def __init__(self, html: str) -> None:
        super().__init__()
        self.rows: list[dict[str, object]] = []
        self.open: list[int] = []
        self.feed(html)

    def handle_starttag(self, tag: str, attrs: list[tuple[str, str | None]]) -> None:
        given = {name: value or "" for name, value in attrs}
        number = int(given.pop("n"))
        self.rows.append({"n": number, "p": self.open[-1] if self.open else None, "tag": tag, "attrs": [list(pair) for pair in given.items()]})
        if tag not in VOID:
            self.open.append(number)

    def handle_endtag(self, tag: str) -> None:
        self.open.pop()

    def handle_data(self, data: str) -> None:
        self.rows.append({"n": 10_000 + len(self.rows), "p": self.open[-1], "text": data})


def page_of(body: str) -> Page:
    """A page with this body."""
    rows = Rows(f"<html n=1><body n=2>{body}</body></html>").rows
    return read_page(json.dumps({"url": "https://library.example/", "nodes": rows}).encode(), "page")


# What became of the page, the body as it was and as it is. An element that is in both has one number; those that are new, or
# aren't the same any more, have one from 100 on.
CASES: tuple[tuple[str, str, str], ...] = (
    ("nothing", "<h1 n=3>Hours</h1>", "<h1 n=3>Hours</h1>"),
    ("a banner before", "<h1 n=3>Hours</h1><p n=4>Open</p>", "<div n=100><p n=101>New</p></div><h1 n=3>Hours</h1><p n=4>Open</p>"),
    ("an order turned", "<h2 n=3>A</h2><h2 n=4>B</h2><h2 n=5>C</h2>", "<h2 n=5>C</h2><h2 n=4>B</h2><h2 n=3>A</h2>"),
    ("a section moved, whose heading stands in another too",
     "<section n=3><h2 n=4>Notes</h2><p n=5>one</p></section><section n=6><h2 n=7>Notes</h2><p n=8>two</p></section>",
     "<section n=6><h2 n=7>Notes</h2><p n=8>two</p></section><section n=3><h2 n=4>Notes</h2><p n=5>one</p></section>"),
    ("the same, with its text mended",
     "<section n=3><h2 n=4>Notes</h2><p n=5>one</p></section><section n=6><h2 n=7>Notes</h2><p n=8>two</p><p n=9>three</p></section>",
     "<section n=6><h2 n=7>Notes</h2><p n=8>two</p><p n=9>four</p></section><section n=3><h2 n=4>Notes</h2><p n=5>one</p></section>"),
    ("a wrapper around", "<h2 n=3>Notes</h2><p n=4>one</p><h2 n=5>Notes</h2><p n=6>two</p>",
     "<div n=100><h2 n=3>Notes</h2><p n=4>one</p></div><div n=101><h2 n=5>Notes</h2><p n=6>two</p></div>"),
    ("a wrapper of the kind of what it wraps, known by its id", "<div n=3 id=main><p n=4>one</p></div>",
     "<div n=100><div n=3 id=main><p n=4>one</p><p n=101>two</p></div></div>"),
    ("classes and styles anew", '<p n=3 class=a>one</p><p n=4 class=b style="x">two</p>', "<p n=3 class=k1>one</p><p n=4 class=k2>two</p>"),
    ("ids that React counts, one more before", "<a n=3 id=:r1: href=/a>A</a><a n=4 id=:r2: href=/b>B</a>",
     "<a n=100 id=:r1: href=/x>X</a><a n=3 id=:r2: href=/a>A</a><a n=4 id=:r3: href=/b>B</a>"),
    ("numbered ids, one more before", "<h2 n=3 id=id1>Rooms</h2><h2 n=4 id=id2>Books</h2>",
     "<h2 n=100 id=id1>News</h2><h2 n=3 id=id2>Rooms</h2><h2 n=4 id=id3>Books</h2>"),
    ("ids drawn by lot", "<div n=3 id=a3f09c2e><p n=4>one</p></div><div n=5 id=b41c77d0><p n=6>two</p></div>",
     "<div n=5 id=99e0c1b2><p n=6>two</p></div><div n=3 id=0c4f5a6e><p n=4>one</p></div>"),
    ("an id stays where all else changes", "<button n=3 id=save>Save</button><button n=4 id=send>Send</button>",
     "<button n=4 id=send>Post</button><button n=3 id=save>Keep</button>"),
    ("an id of tests stays", "<a n=3 data-testid=go>Go</a><a n=4>Stop</a>", "<a n=4>Stop</a><a n=3 data-testid=go>Start</a>"),
    ("an image is replaced", "<img n=3 src=a.png alt=Reading><img n=4 src=b.png alt=Garden>",
     "<img n=4 src=c.png alt=Garden><img n=3 src=d.png alt=Reading>"),
    ("an alternative text is mended", "<img n=3 src=a.png alt=Reading><img n=4 src=b.png alt=Garden>",
     "<img n=4 src=b.png alt=Yard><img n=3 src=a.png alt=Reading>"),
    ("a field keeps its name", "<input n=3 name=words><input n=4 name=year>", "<input n=4 name=year class=x><input n=3 name=words class=x>"),
    ("a heading of another level", "<h2 n=3>Rooms</h2><p n=4>one</p>", "<h3 n=3>Rooms</h3><p n=4>one</p>"),
    ("a text mended", "<h2 n=3>Rooms</h2><p n=4>one</p><h2 n=5>Books</h2>", "<h2 n=3>Rooms</h2><p n=4>one more</p><h2 n=5>Books</h2>"),
    ("entries in the middle", "<ul n=3><li n=4><a n=5>A</a></li><li n=6><a n=7>B</a></li></ul>",
     "<ul n=3><li n=4><a n=5>A</a></li><li n=100><a n=101>X</a></li><li n=6><a n=7>B</a></li></ul>"),
    ("links that say the same, told by what is around",
     "<ul n=3><li n=4><p n=5>A</p><a n=6>More</a></li><li n=7><p n=8>B</p><a n=9>More</a></li></ul>",
     "<ul n=3><li n=100><p n=101>X</p><a n=102>More</a></li><li n=7><p n=8>B</p><a n=9>More</a></li><li n=4><p n=5>A</p><a n=6>More</a></li></ul>"),
    ("a page of equal parts, one fewer", "<p n=3>a</p><p n=4>a</p><p n=5>a</p>", "<p n=3>a</p><p n=4>a</p>"),
)

# The words are the depth, the texts and the attributes of the one page, then those of the other.
SIZES = """
    import json, sys, time, resource
    sys.path.insert(0, sys.argv[1])
    from silvervole.pairing.finding import pair_pages
    from silvervole.view.page import read_page

    TEXTS = {"equal": lambda n: "a", "different": str, "others": lambda n: f"b{n}", "turned": lambda n: str(10_000 - n), "none": lambda n: ""}
    # How many attributes each element has, and the first value.
    ATTRIBUTES = {"bare": (0, 0), "fifty": (50, 0), "moved": (50, 500), "others": (50, 500_000), "known": (40, 0)}

    def row(number, parent, attributes):
        count, first = ATTRIBUTES[attributes]
        prefix, bound = ("aria-", 9) if attributes == "known" else ("", 1_000_000)
        pairs = ",".join(f'["{prefix}{chr(97 + n // 10)}{n % 10}","{(first + number * 50 + n) % bound:x}"]' for n in range(count))
        return f'{{"n":{number},"p":{parent},"tag":"div","attrs":[{pairs}]}}'

    def page(depth, text, attributes):
        rows = ['{"n":1,"p":null,"tag":"html"}']
        while len(rows) < 10_000:
            parent = 1
            for _ in range(min(depth, 10_000 - len(rows))):
                rows.append(row(len(rows) + 1, parent, attributes))
                parent = len(rows)
            if len(rows) < 10_000 and text(len(rows)):
                rows.append(f'{{"n":{len(rows) + 1},"p":{parent},"text":"{text(len(rows))}"}}')
        return f'{{"url":"https://library.example/","nodes":[{",".join(rows)}]}}'.encode()

    words = sys.argv[2:]
    snapshots = [page(int(depth), TEXTS[text], attributes) for depth, text, attributes in (words[:3], words[3:])]
    old, new = (read_page(snapshot, "page") for snapshot in snapshots)
    read = time.process_time()
    pairs = pair_pages(old, new)
    seconds = time.process_time() - read
    print(json.dumps([seconds, resource.getrusage(resource.RUSAGE_SELF).ru_maxrss // 1024, len(pairs), len(set(pairs.values()))]))
"""


def test_pairing() -> None:
    """Each case forwards and, as what was added may be taken away, backwards."""
    for what, before, after in CASES:
        for way, old, new in (("", page_of(before), page_of(after)), (", backwards", page_of(after), page_of(before))):
            found = pair_pages(old, new)
            both = {number for number in old.nodes.keys() & new.nodes.keys() if number < 100}
            same(f"pairs: {what}{way}", {number: found.get(number) for number in sorted(both)}, {number: number for number in sorted(both)})
            same(f"pairs: {what}{way}, one to one", len(set(found.values())), len(found))


def test_pairing_sizes() -> None:
    """10,000 nodes against 10,000: all equal, all different, flat and deep, and of fifty attributes; the memory is that of reading them too."""
    for shapes in (("1", "equal", "bare", "1", "equal", "bare"), ("1", "equal", "bare", "1", "others", "bare"),
                   ("1", "different", "bare", "1", "others", "bare"), ("1", "different", "bare", "1", "turned", "bare"),
                   ("120", "equal", "bare", "120", "equal", "bare"), ("120", "different", "bare", "120", "turned", "bare"),
                   ("120", "equal", "bare", "1", "different", "bare"), ("1", "none", "fifty", "1", "none", "fifty"),
                   ("1", "none", "fifty", "1", "none", "others"), ("120", "different", "fifty", "120", "turned", "moved"),
                   ("1", "none", "known", "1", "none", "known")):
        done = subprocess.run([sys.executable, "-c", textwrap.dedent(SIZES), str(ROOT), *shapes], capture_output=True, text=True, check=False)
        expect(f"pairing of {shapes} runs", done.returncode == 0, done.stderr)
        if done.returncode == 0:
            seconds, megabytes, pairs, olds = json.loads(done.stdout)
            expect(f"pairing of {shapes}", seconds <= SECONDS and megabytes <= MEGABYTES and pairs == olds, done.stdout)
