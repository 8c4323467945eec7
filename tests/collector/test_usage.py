"""The command's words, its refusals, and streams that fail."""
from __future__ import annotations

import json
import os
import pathlib
import signal
import subprocess
import time
from typing import Any

from silvervole.collect.ends import End

from ..processes import children, is_alive
from ..support import COLLECT, COLLECTOR, PAGES, SITE, expect, refused, refused_here, run, same

HOME = (SITE / "home.html", "--url", PAGES["home"])


def test_command(base: str) -> None:
    """Pages of a server and of files, by the command itself."""
    kept = json.loads((SITE / "home.json").read_bytes())
    code, out, err = run(f"{base}/home.html")
    expect("a page of a server", code == 0 and err == "" and json.loads(out) == {**kept, "url": f"{base}/home.html"}, err)
    code, out, _ = run(f"{base}/moved", "--url", "HTTPS://Library.example", "--follow")
    expect("--url sets the address, and it is written as parsed", code == 0 and json.loads(out) == kept)
    code, out, _ = run((SITE / "home.html").as_uri(), "--url", PAGES["home"])
    expect("a file's address", code == 0 and json.loads(out) == kept)
    refused("a page that isn't there", End.LOAD, "404", f"{base}/nowhere.html")


def test_words() -> None:
    """Words that are refused before a browser starts."""
    page_file = SITE / "home.html"
    for what, says, words in (
            ("a file without --url", "--url", (page_file,)),
            ("no page", "usage", ("--url", PAGES["home"])),
            ("two pages", "usage", (page_file, page_file)),
            ("an unknown word", "usage", ("--uri", PAGES["home"], page_file)),
            ("a shortened word", "usage", (page_file, "--ur", PAGES["home"])),
            ("an address of another kind", "ftp://library.example/", ("ftp://library.example/",)),
            ("--url of another kind", "http and https", (page_file, "--url", "file:///home.html")),
            ("no time", "seconds above 0", (*HOME, "--timeout", "0")),
            ("a time that is no number", "seconds above 0", (*HOME, "--timeout", "soon")),
            ("a negative settling time", "--settle", (*HOME, "--settle", "-1")),
            ("a viewport of one number", "1280x900", (*HOME, "--viewport", "1280")),
            ("a viewport of nothing", "1280x900", (*HOME, "--viewport", "0x900")),
            ("a cookie without a value", "NAME=VALUE", (*HOME, "--cookie", "user")),
            ("a header without a colon", "NAME: VALUE", (*HOME, "--header", "X-Team web")),
            ("a cookie for a file", "have nowhere to go", (*HOME, "--cookie", "user=ann")),
            ("--jobs beside one page", "--list", (*HOME, "--jobs", "2")),
            ("--shots beside one page", "--list", (*HOME, "--shots")),
            ("a list beside a page", "usage", (*HOME, "--list", "pages.txt")),
            ("a list without --out", "--out", ("--list", "pages.txt")),
            ("--states beside a list", "one page", ("--list", "pages.txt", "--out", "x", "--states", "steps.toml")),
            ("--frames without --out", "needs --out", (*HOME, "--frames")),
            ("--states without --out", "needs --out", (*HOME, "--states", "steps.toml")),
            ("--url beside a list", "one page", ("--list", "pages.txt", "--out", "x", "--url", PAGES["home"])),
            ("--shot beside a list", "--shots", ("--list", "pages.txt", "--out", "x", "--shot", "x.png")),
            ("too many jobs", "from 1 to 16", ("--list", "pages.txt", "--out", "x", "--jobs", "17"))):
        refused(what, End.USAGE, says, *words)
    refused("a file that isn't there", End.LOAD, "no file", SITE / "nowhere.html", "--url", PAGES["home"])
    refused("a folder", End.LOAD, "no file", SITE, "--url", PAGES["home"])
    code, out, err = run("--help")
    expect("--help tells each word", code == 0 and err == "" and b"--wait" in out and b"--shots" in out, err)


def test_load_refusals(browser: Any, base: str) -> None:
    """Pages that don't load, and what is wrong with their words once a browser is there."""
    refused_here(browser, "--url that is no URL", End.USAGE, "no URL", SITE / "home.html", "--url", "http://[library]/")
    refused_here(browser, "a selector that isn't one", End.USAGE, "CSS selector", *HOME, "--wait", "p[")
    refused_here(browser, "a server's error", End.LOAD, "status 500", f"{base}/broken")
    refused_here(browser, "an answer without a page", End.LOAD, "status 204", f"{base}/empty")
    refused_here(browser, "a server that hangs up", End.LOAD, "EMPTY_RESPONSE", f"{base}/cut-off")
    refused_here(browser, "a server that isn't there", End.LOAD, "doesn't load", "http://127.0.0.1:1/")


def test_missing_tools(folder: str) -> None:
    """What is said where a part isn't installed, and that these tests are skipped then."""
    bare = {**os.environ, "PATH": folder}
    refused("no Chromium", End.BROWSER, "Chromium isn't there", *HOME, env=bare)
    os.symlink("/bin/false", os.path.join(folder, "chromium"))
    refused("no driver", End.BROWSER, "driver isn't there", *HOME, env=bare)
    os.symlink("/bin/false", os.path.join(folder, "chromedriver"))
    refused("a driver that doesn't start", End.BROWSER, "doesn't start", *HOME, env=bare)
    with open(os.path.join(folder, "selenium.py"), "w", encoding="utf-8"):
        pass
    hidden = {**os.environ, "PYTHONPATH": folder}
    refused("no selenium", End.BROWSER, "selenium isn't there", *HOME, env=hidden)
    os.unlink(os.path.join(folder, "selenium.py"))
    for name, says in (("selenium", "selenium isn't there"), ("jinja2", "jinja2 isn't there"), ("pytest", "python3-pytest")):
        path = pathlib.Path(folder, f"{name}.py")
        path.write_text("raise ImportError", encoding="utf-8")
        code, out, _ = run("tests/collector/test_kinds.py", "--numprocesses", "0", env=hidden, program=COLLECTOR / "test")
        expect(f"without {name} these tests are skipped", code == 0 and out.decode("utf-8").count(says) == 1 and b"skipped" in out, out)
        path.unlink()


def test_interrupt(base: str) -> None:
    """A command that is ended while its browser runs closes it, and says one line."""
    for sent in (signal.SIGTERM, signal.SIGINT):
        command = subprocess.Popen([str(COLLECT), f"{base}/never"], stdin=subprocess.DEVNULL,
                                   stdout=subprocess.PIPE, stderr=subprocess.PIPE)
        begun = time.monotonic() + 60
        while not children(command.pid) and time.monotonic() < begun:
            time.sleep(0.2)
        time.sleep(3)
        started = children(command.pid)
        command.send_signal(sent)
        out, err = command.communicate()
        same(f"{sent.name}: the status and the line", (command.returncode, out, err), (End.INTERRUPTED, b"", b"collect: interrupted\n"))
        end = time.monotonic() + 20
        while any(map(is_alive, started)) and time.monotonic() < end:
            time.sleep(0.2)
        same(f"{sent.name}: processes that are left", list(filter(is_alive, started)), [])


def test_streams(base: str, folder: str) -> None:
    """A standard output that is closed, full or gone ends in one line, and never in a traceback."""
    def ends(what: str, command: str) -> None:
        done = subprocess.run(["bash", "-c", command], stdin=subprocess.DEVNULL, stdout=subprocess.DEVNULL,
                              stderr=subprocess.PIPE, check=False)
        line = done.stderr.decode("utf-8")
        expect(what, done.returncode == End.OUTPUT and line.count("\n") == 1 and "standard output" in line,
               f"status {done.returncode}, {line!r}")

    home = f"{COLLECT} {HOME[0]} --url {HOME[2]}"
    ends("a closed standard output", f"{home} >&-")
    ends("a full disk", f"{home} > /dev/full")
    ends("a reader that goes away", f"set -o pipefail; {home} | true")
    ends("help on a full disk", f"{COLLECT} --help > /dev/full")
    code = subprocess.run(["bash", "-c", f"{COLLECT} 2>&-"], stdin=subprocess.DEVNULL, capture_output=True, check=False)
    same("without standard error nothing is written elsewhere", (code.returncode, code.stdout), (End.USAGE, b""))
    refused("a picture that can't be written", End.OUTPUT, "can't be written", *HOME, "--shot", f"{folder}/no/page.png")
