"""Frames: within each other, of other origins, and such as can't be looked into."""
from __future__ import annotations

import json
import os
import pathlib

from silvervole.collect.ends import End
from silvervole.collect.places import name_of

from ..support import expect, page, run, same, well_formed
from .server import HTML, Answer, ServePages, html

COMPONENT = """<p>elsewhere<x-role><template shadowrootmode=open><b>deep</b></template></x-role><script>
customElements.define('x-role', class extends HTMLElement { constructor() { super(); this.attachInternals().role = 'button'; } })</script>"""
CLOSED = "<x-b><template shadowrootmode=closed></template></x-b>"


def framing(other: str) -> dict[str, Answer]:
    """A page with frames of each kind, and what is in them."""
    texts = {
        "/frames": f"""<p>page</p><iframe src=/one></iframe><iframe src={other}/there></iframe>
            <iframe srcdoc="<p>in srcdoc<iframe srcdoc='<p>deeper'></iframe>"></iframe><iframe sandbox src=/three></iframe>
            <iframe src=/paper.pdf></iframe><iframe src=/broken></iframe><iframe src=http://127.0.0.1:1/></iframe>
            <x-a><template shadowrootmode=open><iframe src=/good.html></iframe></template></x-a><object data=/good.html?object></object>""",
        "/one": "<p>one<iframe src=/two></iframe>", "/two": "<p>two<iframe src=/three></iframe>", "/three": f"<p>three{CLOSED}",
        "/holds-up": "<p>held up<iframe src=/hangs-on></iframe><iframe src=/good.html></iframe>"}
    return {path: Answer(HTML, html(text)) for path, text in texts.items()}


# Each frame's address, and a text in it; OTHER is the second server.
HELD = {2: ("/one", "one"), 3: ("/two", "two"), 4: ("/three", "three"), 5: ("OTHER/there", "elsewhere"),
        6: ("/frames#frame-6", "in srcdoc"), 7: ("/frames#frame-7", "deeper"), 8: ("/three", "three"),
        12: ("/good.html", "good"), 13: ("/good.html?object", "good")}
REFUSED = {9: "/paper.pdf) can't be looked into: it isn't an HTML page: its type is application/pdf",
           10: "/broken) can't be looked into: the server answered with status 500",
           11: "http://127.0.0.1:1/) can't be looked into: it doesn't load"}


def test_frames(folder: str, serve_pages: ServePages) -> None:
    """Each frame is a page of the list's folder, and what can't be looked into is a line."""
    other = serve_pages({"/there": Answer(HTML, html(COMPONENT))})
    base = serve_pages(framing(other))
    frames_of_a_list(folder, base, other)
    frames_that_hang(folder, base)


def frames_of_a_list(folder: str, base: str, other: str) -> None:
    """Frames of a page in a list."""
    listed, front = os.path.join(folder, "pages.txt"), os.path.join(folder, name_of(f"{base}/frames"))
    pathlib.Path(listed).write_text(f"{base}/frames\n", encoding="utf-8")
    pathlib.Path(f"{front}.frame-99.json").write_text("of an earlier run", encoding="utf-8")
    code, out, err = run("--list", listed, "--out", folder, "--frames")
    files = [f"{front}.json", *(f"{front}.frame-{number}.json" for number in HELD)]
    same("frames: the page and its frames are told", out.decode("utf-8").splitlines(),
         [*(f"{base}/frames {file}" for file in files), "1 pages, 1 collected, 0 failed, status 0"])
    same("frames: the files", sorted(str(path) for path in pathlib.Path(folder).glob("*.json")), sorted(files))
    for number, (address, text) in HELD.items():
        data = pathlib.Path(f"{front}.frame-{number}.json").read_bytes()
        rows = well_formed(f"frame {number} is well formed", data)
        same(f"frame {number}: its address", json.loads(data)["url"], address.replace("OTHER", other) if "OTHER" in address else base + address)
        same(f"frame {number}: its number", json.loads(data).get("frame"), number)
        expect(f"frame {number}: what is in it", text in [row["text"] for row in rows], rows)
        if number == 5:
            expect("components of another origin", ["role", "button"] in [pair for row in rows for pair in row["attrs"]] and "deep" in str(rows), rows)
    lines = err.splitlines()
    same("frames: closed trees in frames are counted", lines[:1], [f"collect: {base}/frames: 2 closed shadow trees are left out, of x-b (2)"])
    same("frames: lines of what can't be looked into", [line.partition("(node ")[2].partition(", ")[2] for line in lines[1:]], list(REFUSED.values()))
    expect("frames: each has its number", all(f"frame {number} (node " in line for number, line in zip(REFUSED, lines[1:])), lines)
    text = pathlib.Path(files[0]).read_text(encoding="utf-8")
    expect("frames: the page itself holds none of them", "cd_frame_id_" not in text and "elsewhere" not in text and '"frame"' not in text)


def frames_that_hang(folder: str, base: str) -> None:
    """A frame that never loads, which holds up its page's load event too."""
    file = os.path.join(folder, "held.json")
    code, out, err = run(f"{base}/holds-up", "--frames", "--out", file, "--timeout", "15")
    expect("a frame that never loads is a line", code == 0 and out == b"" and err.count("\n") == 1
           and "frame 2 (node 8, /hangs-on) can't be looked into: it hasn't loaded in time" in err, f"status {code}, {err}")
    expect("the page and its other frame are written", os.path.exists(file) and b"good" in pathlib.Path(folder, "held.frame-3.json").read_bytes())
    code, _, err = run(f"{base}/holds-up", "--out", file, "--timeout", "5")
    same("without --frames such a page is refused", code, End.TIME)
    with page("<p>x<iframe srcdoc='<p>y'></iframe>") as path:
        code, out, err = run(path, "--url", "https://frames.example/a#b", "--frames", "--no-shadow", "--out", file)
        same("frames of a file", (code, out, err), (0, b"", ""))
        same("their address", json.loads(pathlib.Path(folder, "held.frame-2.json").read_bytes())["url"], "https://frames.example/a#frame-2")
