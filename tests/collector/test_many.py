"""Lists of pages."""
from __future__ import annotations

import os
import pathlib

from silvervole.collect.ends import End
from silvervole.collect.places import name_of

from ..support import PAGES, SITE, expect, refused, run, same

NAMES = {
    "https://www.example.org/": "www.example.org",
    "https://www.example.org": "www.example.org",
    "HTTPS://WWW.Example.org/About": "www.example.org_About",
    "https://www.example.org/search?words=rain&page=2": "www.example.org_search%3Fwords=rain%26page=2",
    "https://www.example.org/a_b/": "www.example.org_a%5Fb_",
    "http://127.0.0.1:8080/a b": "http+127.0.0.1+8080_a%20b",
    "https://www.example.org/../../etc/passwd": "www.example.org_.._.._etc_passwd",
}


def test_names() -> None:
    """A file's name is told from the address alone, and no two addresses share one."""
    for address, name in NAMES.items():
        same(f"the name of {address}", name_of(address), name)
    long = name_of("https://www.example.org/" + "a" * 500)
    expect("a long name has a digest", len(long) == 200 and long != name_of("https://www.example.org/" + "a" * 501))


def test_list(base: str, folder: str) -> None:
    """Each page is collected as it is alone, a page that fails leaves no file, and the worst status counts."""
    out_folder = os.path.join(folder, "made", "snapshots")
    listed = os.path.join(folder, "pages.txt")
    pathlib.Path(listed).write_text("\n".join([
        "# the library", f"{SITE / 'home.html'} {PAGES['home']}", f"  {SITE / 'old.html'} {PAGES['old']}", "",
        f"{base}/dot.png", f"{base}/broken", f"{base}/good.html"]) + "\n", encoding="utf-8")
    stale = os.path.join(out_folder, name_of(f"{base}/broken") + ".json")
    os.makedirs(out_folder)
    pathlib.Path(stale).write_text("of an earlier run", encoding="utf-8")
    code, out, err = run("--list", listed, "--out", out_folder, "--jobs", "2", "--shots")
    lines = out.decode("utf-8").splitlines()
    same("the worst status counts", code, End.LOAD)
    same("the summary", lines[-1:], ["5 pages, 3 collected, 2 failed, status 14"])
    same("a line for each page that is written", sorted(lines[:-1]), sorted(
        f"{address} {out_folder}/{name}.json" for address, name in (
            (PAGES["home"], "library.example"), (PAGES["old"], "library.example_old"),
            (f"{base}/good.html", name_of(f"{base}/good.html")))))
    errors = sorted(err.splitlines())
    expect("a line for each page that isn't", len(errors) == 2 and "/broken: status 14: " in errors[0]
           and "/dot.png: status 10: " in errors[1], err)
    for name in ("home", "old"):
        file = pathlib.Path(out_folder, name_of(PAGES[name]) + ".json")
        expect(f"{name}: the same bytes as alone", file.read_bytes() == (SITE / f"{name}.json").read_bytes())
    expect("a page that fails leaves no file of an earlier run", not os.path.exists(stale))
    names = sorted(name_of(address) for address in (PAGES["home"], PAGES["old"], f"{base}/good.html"))
    same("the folder holds snapshots", sorted(path.name for path in pathlib.Path(out_folder).iterdir()),
         sorted([*(f"{name}.json" for name in names), "pictures"]))
    same("and pictures", sorted(path.name for path in pathlib.Path(out_folder, "pictures").iterdir()),
         sorted(f"{name}.png{ending}" for name in names for ending in ("", ".json")))
    expect("nothing is left half written", not list(pathlib.Path(out_folder).rglob("*.part")))


def test_list_words(folder: str) -> None:
    """Lists that are refused before a browser starts."""
    def refuses(what: str, says: str, text: bytes) -> None:
        listed = pathlib.Path(folder, "pages.txt")
        listed.write_bytes(text)
        refused(what, End.USAGE, says, "--list", listed, "--out", folder)

    refuses("an empty list", "names no page", b"# nothing\n\n")
    refuses("three words on a line", "line 2", b"https://a.example/\na b c\n")
    refuses("an address of another kind to write", "http and https", b"a.html file:///a.html\n")
    refuses("one address twice", "one file", b"https://a.example/\nhttps://A.example\n")
    refuses("a list that isn't in UTF-8", "UTF-8", b"https://a.example/\xff\n")
    refused("a list that isn't there", End.USAGE, "can't be read", "--list", f"{folder}/none", "--out", folder)
    listed = pathlib.Path(folder, "pages.txt")
    listed.write_bytes(b"https://a.example/\n")
    refused("a folder that can't be made", End.OUTPUT, "can't be made", "--list", listed, "--out", f"{listed}/x")
