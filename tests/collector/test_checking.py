"""`silvervole check` with a real browser and the built desk: servers' pages, frames, states, a sign-in, and an interrupt."""
from __future__ import annotations

import os
import pathlib
import re
import signal
import subprocess
import sys
import time

import pytest

from silvervole.collect.ends import End

from ..processes import children, is_alive
from ..support import OWN_PAGES, ROOT, SITE, expect, run, same
from .server import HTML, Answer, ServePages, html
from .test_frames import COMPONENT, HELD, REFUSED, framing

COMMAND = ROOT / "bin" / "silvervole"
# What the README of the example site says of two of its pages, without what the composite merges.
SUMS = {"home": "3 failed, 7 to judge, 26 passed; 13 rules without a target here",
        "search": "7 failed, 5 to judge, 43 passed; 9 rules without a target here"}


@pytest.mark.desk
def test_check(base: str) -> None:
    """Pages of a server, a file and one that isn't there: each is told, and the sums of all."""
    code, out, err = run("check", f"{base}/home.html", SITE / "search.html", f"{base}/none.html", "--jobs", "2", program=COMMAND)
    text = out.decode("utf-8")
    same("the status of a page that doesn't load", code, End.LOAD)
    same("what is said of it", err,
         f"silvervole check: {base}/none.html: status 14: the page doesn't load: {base}/none.html: the server answered with status 404\n")
    for name, sums in SUMS.items():
        expect(f"the sums of {name}", f"\n{sums}\n" in text, text[-300:])
    same("the sums of all", text.splitlines()[-1], "2 pages: 10 failed, 12 to judge, 69 passed; 1 page couldn't be checked")
    expect("a finding has its path and its start tag", "    html > body > header > button (node 51)\n      <button class=\"menu\" " in text)


@pytest.mark.desk
def test_check_frames(serve_pages: ServePages) -> None:
    """What is in each frame is a page of its own, of which rules on whole pages say nothing."""
    base = serve_pages(framing(serve_pages({"/there": Answer(HTML, html(COMPONENT))})))
    _, out, err = run("check", f"{base}/frames", "--frames", program=COMMAND)
    titles = re.findall(r"^http.* \"t\"(?:, (frame-[0-9]+))?$", out.decode("utf-8"), re.MULTILINE)
    same("the page and its frames are told", titles, ["", *(f"frame-{number}" for number in (2, 3, 4, 5)), "frame-8", "frame-12", "frame-13"])
    same("pages in all", out.decode("utf-8").splitlines()[-1].split(":")[0], f"{1 + len(HELD)} pages")
    for number, why in REFUSED.items():
        expect(f"frame {number} can't be looked into", why in err, err)


@pytest.mark.desk
def test_check_states() -> None:
    """The page is told as it was at first, and after each step."""
    code, out, err = run("check", OWN_PAGES / "menu.html", "--states", OWN_PAGES / "menu.toml", program=COMMAND)
    expect("all states are checked", code in (End.WRITTEN, End.FAILED) and err == "", err)
    same("their names", re.findall(r", state (.*)$", out.decode("utf-8"), re.MULTILINE), ["menu open", "first branch", "closed again"])


@pytest.mark.desk
def test_check_sign_in(base: str, folder: str) -> None:
    """The settings' sign-in gives the cookie and the header with which a page is asked."""
    script, settings = pathlib.Path(folder, "in.sh"), pathlib.Path(folder, "silvervole.toml")
    script.write_text("#!/bin/sh\necho 'cookie user=ann'\necho 'header X-Team: web: a'\n", encoding="utf-8")
    script.chmod(0o755)
    page = f'[[page]]\naddress = "{base}/guarded"\n'
    settings.write_text(page, encoding="utf-8")
    same("without it the page is refused", run("check", "--settings", settings, program=COMMAND)[0], End.LOAD)
    settings.write_text(f'[sign-in]\ncommand = ["./in.sh"]\n{page}', encoding="utf-8")
    code, out, err = run("check", "--settings", settings, program=COMMAND)
    expect("with it the page is checked", code in (End.WRITTEN, End.FAILED) and f"{base}/guarded" in out.decode("utf-8"), err)
    code, _, err = run("check", "--sign-in", f"{script} x", f"{base}/guarded", program=COMMAND)
    expect("by the command line too", code in (End.WRITTEN, End.FAILED), err)


@pytest.mark.desk
def test_check_interrupt(base: str) -> None:
    """An interrupt closes the browsers, and is one line."""
    command = subprocess.Popen([COMMAND, "check", f"{base}/never", f"{base}/never?2", "--jobs", "2"], stdin=subprocess.DEVNULL,
                               stdout=subprocess.PIPE, stderr=subprocess.PIPE)
    begun = time.monotonic() + 60
    while len(children(command.pid)) < 8 and time.monotonic() < begun:
        time.sleep(0.2)
    started = children(command.pid)
    os.kill(command.pid, signal.SIGINT)
    out, err = command.communicate()
    same("the status and the line", (command.returncode, out, err), (End.INTERRUPTED, b"", b"silvervole check: interrupted\n"))
    end = time.monotonic() + 20
    while any(map(is_alive, started)) and time.monotonic() < end:
        time.sleep(0.2)
    same("processes that are left", list(filter(is_alive, started)), [])


REFERENCE, SECONDS = "sum(range(10_000_000))", 0.35  # a command, and what it takes where the bounds were set
ROUNDS = 3


def slowness() -> float:
    """How many times as long as where the bounds were set all takes now: a command by the clock, or what waits for each processor."""
    begun = time.monotonic()
    subprocess.run([sys.executable, "-c", REFERENCE], check=True)
    return max(1.0, (time.monotonic() - begun) / SECONDS, os.getloadavg()[0] / (os.cpu_count() or 1))


def most(text: str, words: str, count: int) -> float:
    """The most of the seconds that so many lines of `bench/check` give after these words."""
    found = [float(seconds) for seconds in re.findall(rf"{words} ([0-9.]+) s", text)]
    same(f"lines with {words!r}", len(found), count)
    return max(found, default=0.0)


@pytest.mark.desk
def test_check_times() -> None:
    """The bounds of `bench/check`, as much wider as this machine is slower or busier, in one of some rounds."""
    for left in reversed(range(ROUNDS)):
        before = slowness()
        _, out, err = run("3", program=ROOT / "bench" / "check")
        allowed, text = max(before, slowness()), out.decode("utf-8")
        added, after = most(text, "silvervole check adds", 2), most(text, "the first finding .*is there", 4)
        if (added <= 0.3 * allowed and after <= 1.0 * allowed) or not left:
            break
    expect(f"what check adds to an audit, where all takes {allowed:.1f} times as long", added <= 0.3 * allowed, text + err)
    expect(f"when the first finding is there, where all takes {allowed:.1f} times as long", after <= 1.0 * allowed, text + err)
