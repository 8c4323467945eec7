"""silvervole.toml: each setting, what is refused, the sign-in, and the file that `silvervole init` writes."""
from __future__ import annotations

import pathlib
import re
import tomllib

import pytest

from silvervole.check.options import Checking, parser, read_words
from silvervole.collect.ends import End, Stop
from silvervole.formats.options import FORMATS
from silvervole.settings.reading import KEYS
from silvervole.settings.sign_in import Signed, signed
from silvervole.settings.writing import FILES, Answers, settings_text

from .standin import at_terminal, desk, plain_environment, shop_file, silvervole

WHOLE = """
jobs = 3
frames = true
shadow = false
shots = true
exact = true
viewport = "800x600"
budget = 7
accepted = "team/accepted.toml"
out = "audit"
book = "forty"

[waiting]
for = "main h1"
timeout = 2.5
settle = 40

[formats]
html = "out/found.html"
junit = "out/junit.xml"

[[page]]
address = "https://www.example.org/"

[[page]]
file = "build/about.html"
address = "https://www.example.org/about"
states = "about.toml"
"""


def checking(folder: pathlib.Path, text: str, *words: str) -> Checking:
    """What check would do by these settings and words."""
    path = folder / "settings.toml"
    path.write_text(text, encoding="utf-8")
    return read_words(["--settings", str(path), *words], parser())


def test_each_setting(tmp_path: pathlib.Path) -> None:
    """Each is what its option is, with paths from the file's folder."""
    found = checking(tmp_path, WHOLE)
    options = found.options
    assert (found.jobs, options.frames, options.shadow, options.exact, options.viewport, found.budget) == (3, True, False, True, (800, 600), 7)
    assert (options.wait, options.timeout, options.settle, options.shot) == ("main h1", 2.5, 40, "")
    assert (found.given.accepted, found.out, found.book) == (str(tmp_path / "team/accepted.toml"), str(tmp_path / "audit"), "forty")
    assert (found.given.html, found.given.junit, found.given.json) == (str(tmp_path / "out/found.html"), str(tmp_path / "out/junit.xml"), None)
    assert [(one.page, one.url, one.states) for one in found.subjects] == [
        ("https://www.example.org/", None, None),
        (str(tmp_path / "build/about.html"), "https://www.example.org/about", str(tmp_path / "about.toml"))]


def test_the_command_line_wins(tmp_path: pathlib.Path) -> None:
    """Each word counts in place of its setting, and pages in place of the pages there."""
    found = checking(tmp_path, WHOLE, "--jobs", "1", "--no-frames", "--shadow", "--wait", "load", "--budget", "0", "--html", "here.html",
                     "--book", "thirty", "https://other.example/")
    assert (found.jobs, found.options.frames, found.options.shadow, found.options.wait, found.budget) == (1, False, True, "load", 0)
    assert found.book == "thirty"
    assert (found.given.html, [one.page for one in found.subjects]) == ("here.html", ["https://other.example/"])
    assert found.options.settle == 40


def test_list(tmp_path: pathlib.Path) -> None:
    """A list counts where no page is named, and its path is told from the file's folder."""
    (tmp_path / "pages.txt").write_text("https://one.example/\nhttps://two.example/\n", encoding="utf-8")
    assert [one.page for one in checking(tmp_path, 'list = "pages.txt"').subjects] == ["https://one.example/", "https://two.example/"]
    assert [one.page for one in checking(tmp_path, 'list = "pages.txt"', "https://x.example/").subjects] == ["https://x.example/"]


@pytest.mark.parametrize("text, says", [
    ("bugdet = 3", "bugdet is no setting; is budget meant?"),
    ("zzz = 3", "zzz is no setting: there are accepted, book, budget, "),
    ("[waiting]\nuntil = 3", "until of [waiting] is no setting"),
    ("[formats]\npdf = \"x\"", "pdf of [formats] is no setting"),
    ("budget = -1", "budget: -1 isn't a whole number from 0 to "),
    ("budget = true", "budget: it is a number or a text"),
    ("book = \"fifty\"", "book: it is thirty or forty"),
    ("book = 40", "book: it is thirty or forty"),
    ("frames = 1", "frames: it is true or false"),
    ("jobs = 17", "jobs: 17 isn't a whole number from 1 to 16"),
    ("viewport = \"800\"", "viewport: 800 isn't a width and a height"),
    ("waiting = 3", "[waiting] is a table"),
    ("[waiting]\ntimeout = 0", "timeout of [waiting]: 0 isn't a number of seconds above 0"),
    ("[sign-in]\ncommand = \"./in.sh\"", "command of [sign-in]: it is a list of words"),
    ("[[page]]\nstates = \"x\"", "page 1 has neither an address nor a file"),
    ("[[page]]\nadress = \"x\"", "page 1: adress is no setting; is address meant?"),
    ("[[page]]\nfile = \"x\"\naddress = \"ftp://x/\"", "page 1: --url ftp://x/: the desk takes addresses of http and https alone"),
    ("page = 3", "each page is a table [[page]]"),
    ("budget =", "it isn't TOML: ")])
def test_refusals(tmp_path: pathlib.Path, text: str, says: str) -> None:
    """What isn't a setting is refused by name, in one line."""
    with pytest.raises(Stop) as refused:
        checking(tmp_path, text)
    assert refused.value.end is End.USAGE and refused.value.line.startswith(f"{tmp_path / 'settings.toml'}: {says}")


def test_found_in_the_folder_of_work(tmp_path: pathlib.Path) -> None:
    """The file counts without being named, and a missing one that is named is refused."""
    shop_file(tmp_path)
    (tmp_path / "silvervole.toml").write_text('budget = 3\n[formats]\ncsv = "found.csv"\n[[page]]\nfile = "shop.json"\n', encoding="utf-8")
    status, out, error = silvervole("check", env=desk(tmp_path), cwd=tmp_path)
    assert (status, error) == (0, "") and out.endswith("within the budget of 3\n") and (tmp_path / "found.csv").is_file()
    status, _, error = silvervole("check", "--settings", "none.toml", cwd=tmp_path)
    assert (status, error) == (18, "silvervole check: none.toml: it can't be read: No such file or directory\n")
    (tmp_path / "silvervole.toml").unlink()
    status, _, error = silvervole("check", cwd=tmp_path)
    assert status == 18 and error.startswith("silvervole check: no page is named, and no silvervole.toml names one (`silvervole init` writes it); usage: ")


def command(folder: pathlib.Path, does: str) -> list[str]:
    """A command that does this."""
    path = folder / "sign-in.sh"
    path.write_text(f"#!/bin/sh\n{does}\n", encoding="utf-8")
    path.chmod(0o755)
    return ["./sign-in.sh"]


def test_sign_in(tmp_path: pathlib.Path) -> None:
    """Its cookies and headers are read, and it is run in the folder of the settings."""
    words = command(tmp_path, 'echo "cookie session=$(cat key)"; echo; echo "header x-team: red wine"')
    (tmp_path / "key").write_text("a1=b2", encoding="utf-8")
    assert signed(words, str(tmp_path)) == Signed((("session", "a1=b2"),), (("x-team", "red wine"),))
    found = checking(tmp_path, '[sign-in]\ncommand = ["./sign-in.sh"]\n[[page]]\naddress = "https://a.example/"')
    assert found.sign_in is not None and found.sign_in.run().cookies == (("session", "a1=b2"),)
    assert checking(tmp_path, '[sign-in]\ncommand = ["./sign-in.sh"]\n[[page]]\nfile = "a.html"').sign_in is None
    with pytest.raises(Stop, match="a sign-in is for one server, and the pages are of https://a.example and https://b.example"):
        checking(tmp_path, '[sign-in]\ncommand = ["./sign-in.sh"]', "https://a.example/", "https://b.example/")


@pytest.mark.parametrize("does, says", [
    ("echo secret; exit 3", "it ended with status 3"), ("true", "it prints nothing; each line"), ("echo secret", "its line 1: each line that it prints is"),
    ("echo 'cookie x=y'; echo 'cookie secret'", "its line 2: a cookie is NAME=VALUE"), ("echo 'header secret'", "its line 1: a header is 'NAME: VALUE'"),
    ("printf '\\377'", "what it prints isn't in UTF-8")])
def test_failing_sign_in(tmp_path: pathlib.Path, does: str, says: str) -> None:
    """It is refused with a status of its own, and what it prints is shown nowhere."""
    with pytest.raises(Stop) as refused:
        signed(command(tmp_path, does), str(tmp_path))
    assert refused.value.end is End.SIGN_IN and refused.value.line.startswith(f"the sign-in by ./sign-in.sh failed: {says}")
    assert "secret" not in refused.value.line
    with pytest.raises(Stop, match="No such file or directory"):
        signed(["./none.sh"], str(tmp_path))


def test_init(tmp_path: pathlib.Path) -> None:
    """The file reads as settings, names each of them, and isn't written over."""
    assert silvervole("init", "https://www.example.org/", "about.html", cwd=tmp_path)[0] == 0
    text = (tmp_path / "silvervole.toml").read_text(encoding="utf-8")
    assert tomllib.loads(text)["page"] == [{"address": "https://www.example.org/"}, {"file": "about.html"}]
    for name in [key for keys in KEYS.values() for key in keys] + list(FORMATS):
        assert f"{name} = " in text, name
    assert set(FILES) == set(FORMATS)
    # Each line that is a comment on a setting would be one without its mark.
    bare = re.sub(r"^# (?=[a-z-]+ = |\[\[page)", "", settings_text(Answers()), flags=re.MULTILINE)
    assert [page.states for page in checking(tmp_path, bare).subjects] == [str(tmp_path / "steps.toml")] and bare.count("\n#") < bare.count(" = ")
    status, _, error = silvervole("init", cwd=tmp_path)
    assert (status, error) == (18, "silvervole init: silvervole.toml is there already; --force writes over it\n")


def test_init_asks(tmp_path: pathlib.Path) -> None:
    """On a terminal the answers are what is written."""
    status, got = at_terminal("init", env=plain_environment(), cwd=tmp_path,
                              answers="https://a.example/ b.html\nmain > h1\n./in.sh --quiet\n4\nhtml, junit\n")
    assert status == 0 and "Which pages are to be checked?" in got, got
    assert tomllib.loads((tmp_path / "silvervole.toml").read_text(encoding="utf-8")) == {
        "budget": 4, "waiting": {"for": "main > h1"}, "sign-in": {"command": ["./in.sh", "--quiet"]},
        "formats": {"html": "findings.html", "junit": "junit.xml"}, "page": [{"address": "https://a.example/"}, {"file": "b.html"}]}
