"""The server of the tests, on 127.0.0.1: the example site, and pages of every kind."""
from __future__ import annotations

import functools
import http.server
import threading
import time
from typing import Callable, NamedTuple

from ..support import SITE

PNG = bytes.fromhex("89504e470d0a1a0a0000000d49484452000000010000000108060000001f15c489"
                    "0000000d49444154789c6360000002000001e221bc330000000049454e44ae426082")
PDF = b"%PDF-1.4\n1 0 obj<</Type/Catalog/Pages 2 0 R>>endobj\n2 0 obj<</Type/Pages/Kids[]/Count 0>>endobj\ntrailer<</Root 1 0 R>>\n%%EOF\n"
XHTML = b'<html xmlns="http://www.w3.org/1999/xhtml" lang="en"><head><title>t</title></head><body><p>x</p>%s</body></html>'
HTML = "text/html; charset=utf-8"
DOWNLOAD = ("Content-Disposition", "attachment; filename=page.html")


def html(body: str) -> bytes:
    """A page with this in it."""
    return f"<!DOCTYPE html><html lang=en><title>t</title>{body}".encode("utf-8")


class Answer(NamedTuple):
    """What the server sends."""

    type: str
    body: bytes
    status: int = 200
    headers: tuple[tuple[str, str], ...] = ()


LATE = """<p id=first>now<script>
setTimeout(() => fetch('/slow-data').then((answer) => answer.text()).then((text) => {
  const late = document.createElement('p'); late.id = 'late'; late.textContent = text; document.body.append(late); }), 50);
</script>"""
# Long after its snapshot is taken, however slow the machine.
LATER = LATE.replace("/slow-data", "/hangs")
BOXES = """<script>
for (let i = 0; i < 20; i += 1) { alert(i); confirm(i); prompt(i); }
addEventListener('load', () => { for (let i = 0; i < 20; i += 1) alert(i); });
setTimeout(() => { alert('later'); document.body.append('after all'); }, 100);
</script><p>after"""

ANSWERS = {
    "/plain.txt": Answer("text/plain", b"<p>no page</p>"),
    "/data.json": Answer("application/json", b'{"no": "page"}'),
    "/data.xml": Answer("application/xml", b"<data><entry/></data>"),
    "/drawing.svg": Answer("image/svg+xml", b"<svg xmlns='http://www.w3.org/2000/svg'><title>t</title></svg>"),
    "/dot.png": Answer("image/png", PNG),
    "/paper.pdf": Answer("application/pdf", PDF),
    "/archive.zip": Answer("application/zip", b"PK\x03\x04 no page"),
    "/sent.html": Answer(HTML, html("<p>x"), headers=(DOWNLOAD,)),
    "/empty": Answer("text/plain", b"", 204),
    "/broken": Answer(HTML, html("<p>an error"), 500),
    "/good.xhtml": Answer("application/xhtml+xml", XHTML % b""),
    "/bad.xhtml": Answer("application/xhtml+xml", XHTML % b"<p>"),
    "/good.html": Answer(HTML, html("<p>good")),
    "/moved": Answer(HTML, b"", 302, (("Location", "/home.html?from=moved"),)),
    "/refresh": Answer(HTML, html("<meta http-equiv=refresh content='0; url=/good.html'><p>old")),
    "/refresh-later": Answer(HTML, html("<meta http-equiv=refresh content='1; url=/good.html'><p>old")),
    "/script": Answer(HTML, html("<p>old<script>location.href = '/good.html'</script>")),
    "/renamed": Answer(HTML, html("<p>x<script>history.replaceState(null, '', '/renamed?by=script')</script>")),
    "/fragment": Answer(HTML, html("<p id=a>x<script>location.hash = '#a'</script>")),
    "/late": Answer(HTML, html(LATE)),
    "/later": Answer(HTML, html(LATER)),
    "/refresh-much-later": Answer(HTML, html("<meta http-equiv=refresh content='60; url=/good.html'><p>old")),
    "/boxes": Answer(HTML, html(BOXES)),
    "/never": Answer(HTML, html("<p>x<img src=/hangs>")),
    "/busy": Answer(HTML, html("<p>x<script>setInterval(() => fetch('/good.html'), 100)</script>")),
    "/no-charset": Answer("text/html", "<!DOCTYPE html><title>t</title><p>\u00e9t\u00e9".encode("utf-8")),
}


SLOW_SECONDS = 0.8


class Handler(http.server.SimpleHTTPRequestHandler):
    """Sends the answers above, what depends on the request, or a file of the example site."""

    server: Server

    def do_GET(self) -> None:
        path = self.path.split("?")[0]
        answers = {**ANSWERS, **self.server.more}
        if path == "/books":
            time.sleep(SLOW_SECONDS)
        if path in answers or self.path in answers:
            self.answer(answers.get(self.path) or answers[path])
        elif path == "/guarded":
            known = "user=ann" in self.headers.get("Cookie", "") and self.headers.get("X-Team") == "web: a"
            self.answer(Answer(HTML, html("<p>secret"), 200 if known else 401))
        elif path == "/asks-around":
            # The same server under another name is another origin.
            other = f"http://localhost:{self.server.server_port}/heard"
            self.answer(Answer(HTML, html(f"<p id=p><script>const ask = (place) => fetch(place).then((answer) => answer.text());"
                                          f"Promise.all([ask('/heard'), ask('{other}')]).then((heard) => {{ p.textContent = heard.join(' and '); p.className = 'done'; }})</script>")))
        elif path == "/heard":
            self.answer(Answer("text/plain", self.headers.get("X-Team", "nothing").encode("ascii"), headers=(("Access-Control-Allow-Origin", "*"),)))
        elif path == "/away":
            self.answer(Answer(HTML, b"", 302, (("Location", f"http://localhost:{self.server.server_port}/heard.html"),)))
        elif path == "/heard.html":
            self.answer(Answer(HTML, html(f"<p>{self.headers.get('X-Team', 'nothing')}")))
        elif path == "/size":
            self.answer(Answer(HTML, html("<p id=size>x<script>size.textContent = innerWidth + ' by ' + innerHeight</script>")))
        elif path == "/slow-data":
            time.sleep(SLOW_SECONDS)
            self.answer(Answer("text/plain", b"come late"))
        elif path == "/hangs":
            time.sleep(8)
        elif path == "/hangs-on":
            time.sleep(120)
        elif path == "/cut-off":
            self.close_connection = True
        else:
            super().do_GET()

    def answer(self, answer: Answer) -> None:
        """Sends one answer."""
        try:
            self.send_response(answer.status)
            self.send_header("Content-Type", answer.type)
            for name, value in answer.headers:
                self.send_header(name, value)
            self.send_header("Content-Length", str(len(answer.body)))
            self.end_headers()
            self.wfile.write(answer.body)
        except OSError:
            pass  # the browser went away

    def log_message(self, *words: object) -> None:
        """Keeps quiet."""


class Server(http.server.ThreadingHTTPServer):
    """A server whose open requests end with the test."""

    daemon_threads = True
    more: dict[str, Answer] = {}


ServePages = Callable[[dict[str, Answer]], str]


def serve(more: dict[str, Answer] | None = None) -> tuple[Server, str]:
    """A running server and its address; it may have more answers than those above."""
    server = Server(("127.0.0.1", 0), functools.partial(Handler, directory=str(SITE)))
    server.more = more or {}
    threading.Thread(target=server.serve_forever, daemon=True).start()
    return server, f"http://127.0.0.1:{server.server_port}"
