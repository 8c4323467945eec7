"""Waiting for pages, and the words that change how they are asked for."""
from __future__ import annotations

import os
import pty
import subprocess
from typing import Any

from silvervole.collect.ends import End

from ..support import COLLECT, collect_here, expect, refused, refused_here, run


def test_waiting(browser: Any, base: str) -> None:
    """--wait, --timeout and --settle."""
    late, later = f"{base}/late", f"{base}/later"
    expect("without --wait what comes later isn't there", "come late" not in collect_here(browser, later).text)
    expect("--wait load is the same", "come late" not in collect_here(browser, later, "--wait", "load").text)
    expect("--wait network-idle waits for it", "come late" in collect_here(browser, late, "--wait", "network-idle").text)
    expect("--wait SELECTOR waits for it", "come late" in collect_here(browser, late, "--wait", "p#late").text)
    expect("--settle waits for it", "come late" in collect_here(browser, late, "--settle", "4000").text)
    refused_here(browser, "what never comes", End.TIME, "nothing matches #never after 4 seconds", late, "--wait", "#never", "--timeout", "4")
    refused_here(browser, "a network that is never idle", End.TIME, "isn't idle", f"{base}/busy", "--wait", "network-idle", "--timeout", "4")
    refused_here(browser, "a page that never loads", End.TIME, "took more than 1.5 seconds", f"{base}/never", "--timeout", "1.5")


def test_dialogs(browser: Any, base: str) -> None:
    """Any number of dialogs is closed, while the page loads and later."""
    expect("a page that opens dialogs", '"after"' in collect_here(browser, f"{base}/boxes").text)
    expect("dialogs that open later", '"after all"' in collect_here(browser, f"{base}/boxes", "--settle", "2000").text)


def test_requests(browser: Any, base: str) -> None:
    """--cookie, --header and --viewport."""
    refused("without a cookie and a header a guarded page is refused", End.LOAD, "status 401", f"{base}/guarded")
    code, out, err = run(f"{base}/guarded", "--cookie", "user=ann", "--header", "X-Team: web: a")
    expect("--cookie and --header are sent", code == 0 and err == "" and b"secret" in out, err)
    words = ("--header", "X-Team: web", "--header", "Accept-Language: cy")
    text = collect_here(browser, f"{base}/asks-around", *words, "--wait", ".done").text
    expect("a header goes to the page's server, and to no other", '"web and nothing"' in text, text[-300:])
    expect("nor where the server sends the page", '"nothing"' in collect_here(browser, f"{base}/away", *words).text)
    expect("nor with the next page", '"nothing and nothing"' in collect_here(browser, f"{base}/asks-around", "--wait", ".done").text)
    code, out, err = run(f"{base}/size", "--viewport", "390x844")
    expect("--viewport is the page's size", code == 0 and b'"390 by 844"' in out, err)


def test_patience(base: str) -> None:
    """A terminal is told what is waited for, and nothing else is."""
    words = [str(COLLECT), f"{base}/late", "--wait", "#never", "--timeout", "6"]
    here, there = pty.openpty()
    done = subprocess.Popen(words, stdin=subprocess.DEVNULL, stdout=subprocess.DEVNULL, stderr=there)
    os.close(there)
    told = b""
    try:
        while piece := os.read(here, 4096):
            told += piece
    except OSError:
        pass  # the other end is closed
    os.close(here)
    expect("a terminal is told of the waiting", done.wait() == End.TIME and b"still waiting" in told and b"#never" in told, told)
    refused("no terminal is told nothing", End.TIME, "", f"{base}/never", "--timeout", "3")
