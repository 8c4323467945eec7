"""`collector/send` through the real proxy: who may, what is judged through it, and the picture beside the desk."""
from __future__ import annotations

import json
import os
import pathlib
import subprocess

from serving import HOST, ROOT, Serving

from ..support import SITE, expect, same
from .asking import ask, basic
from .packages import BROWSER, PROXY, needs
from .proxies import PASSWORD, Proxy

pytestmark = needs(*PROXY, *BROWSER)

SEND = os.path.join(ROOT, "collector", "send")
REFUSED = 23
JUDGE = "b49b2e"


def sent(proxy: Proxy, folder: str, user: str, *words: str, password: str = PASSWORD, trusting: bool = True) -> tuple[int, list[str], str]:
    """The status, the lines and the refusal of a run that signs in by a file."""
    pathlib.Path(folder, "key").write_text(f"{user}:{password}\n", encoding="utf-8")
    authority = ("--ca", proxy.certificate) if trusting else ()
    done = subprocess.run([SEND, "--desk", f"https://{HOST}:{proxy.port}", "--key", f"{folder}/key", *authority, *words],
                          capture_output=True, check=False, stdin=subprocess.DEVNULL)
    return done.returncode, done.stdout.decode().splitlines(), done.stderr.decode()


def judge_headings(proxy: Proxy) -> int:
    """Lets bob judge each heading, and says how many there are."""
    outcomes = json.loads(ask(proxy, "GET /sites/acme/pages/home/outcomes", None, basic("bob")).body)["outcomes"]
    headings = [one for one in outcomes if one["rule"] == JUDGE]
    for one in headings:
        told = {"rule": JUDGE, "node": one["node"], "verdict": "passed", "digest": one["digest"]}
        same("a judgement through the proxy", ask(proxy, "POST /sites/acme/pages/home/judgements", told, basic("bob")).status, 200)
    return len(headings)


def refusals(proxy: Proxy, folder: str, home: str) -> None:
    """What the proxy and the desk refuse."""
    for what, says, (code, out, err) in (
            ("a wrong password", "doesn't know this name and password", sent(proxy, folder, "ann", "acme/home", home, password="wrong")),
            ("a certificate that isn't trusted", "--ca", sent(proxy, folder, "ann", "acme/home", home, trusting=False)),
            ("a judge", "that of an editor is needed", sent(proxy, folder, "bob", "acme/home", home))):
        expect(f"sending with {what}", (code, out) == (REFUSED, []) and says in err and err.count("\n") == 1, (code, err))


def test_sending(folder: str, desk: Serving, proxy: Proxy) -> None:
    """A page is put, judged, and collected anew with a banner and a picture; then the desk is away."""
    ask(proxy, "PUT /sites/acme", b"", basic("ann"))
    ask(proxy, "PUT /sites/acme/members/bob", {"role": "judge"}, basic("ann"))
    home, banner = str(SITE / "home.json"), pathlib.Path(folder, "banner.html")
    code, lines, err = sent(proxy, folder, "ann", "acme/home", home)
    expect("a page is sent through the proxy", (code, err) == (0, "") and lines[0] == "page acme/home (revision 1; a new page)", (lines[:1], err))
    headings = judge_headings(proxy)
    refusals(proxy, folder, home)
    shots = proxy.make_shots()
    banner.write_text((SITE / "home.html").read_text(encoding="utf-8").replace("<body>", "<body><p>Closed on Monday</p>"), encoding="utf-8")
    words = ("acme/home", str(banner), "--url", "https://library.example/", "--shot")
    code, lines, err = sent(proxy, folder, "ann", *words)
    expect("a banner more", (code, err) == (0, "") and lines[0].startswith("page acme/home (revision 2; 141 nodes stay, 2 are new, 0 are gone)"),
           (lines[:1], err))
    same("each heading counts", sum(line.startswith(f"counts: {JUDGE} ") for line in lines), headings)
    told = json.loads((shots / "acme" / "home.json").read_bytes())
    kept = json.loads(ask(proxy, "GET /sites/acme/pages/home", None, basic("ann")).body)
    expect("the boxes beside the desk are of this revision and these nodes",
           told["rev"] == kept["rev"] == 2 and {int(number) for number in told["boxes"]} <= {row["n"] for row in kept["snapshot"]["nodes"]}, told["rev"])
    expect("and so is the picture", (shots / "acme" / "home.png").read_bytes().startswith(b"\x89PNG"))
    desk.end()
    code, lines, err = sent(proxy, folder, "ann", "acme/home", home)
    expect("the desk is away", (code, lines) == (REFUSED, []) and "the desk is away (503, also after 5 tries)" in err, (code, err))
