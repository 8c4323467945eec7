"""What `silvervole check` tells of the shop, by a program that stands in for the desk."""
from __future__ import annotations

import json
import pathlib

import pytest

from silvervole.view.counting import FRAME

from .samples import SHOP, TABLE, element, words
from .standin import at_terminal, desk, shop_file, silvervole

ESCAPE = "\x1b["
SUMS = "3 failed, 1 to judge, 2 passed; 1 rule without a target here"


def test_words(tmp_path: pathlib.Path) -> None:
    """What, where, what it means and what mends it; the worst first, the sums last."""
    status, out, error = silvervole("check", shop_file(tmp_path), env=desk(tmp_path))
    assert (status, error) == (1, "")
    lines = [line.strip() for line in out.splitlines()]
    assert lines[0] == f'{tmp_path / "shop.json"} "Shop"' and [line for line in lines if line][-1] == SUMS
    places = [lines.index(line) for line in ("FAILED: 3", "#cart (node 6)", "FOR A PERSON TO JUDGE: 1", SUMS)]
    assert places == sorted(places) and not any(line.startswith("PASSED") for line in lines)
    advice = TABLE.rule("c487ae").advice[("no-name", "failed")]
    cart = lines.index("#cart (node 6)")
    assert lines[cart - 3:cart + 2] == [
        "Link has non-empty accessible name (c487ae; WCAG 2.4.4 Link Purpose (In Context), level A; WCAG 4.1.2 Name, Role, Value, level A)",
        advice.means, advice.mends, "#cart (node 6)", '<a id="cart" href="/cart">']
    assert len([line for line in lines if line.startswith("Merged in it, failed: ")]) == 4


def test_passed(tmp_path: pathlib.Path) -> None:
    """What passed is told where it is asked for, after all else."""
    out = silvervole("check", shop_file(tmp_path), "--passed", env=desk(tmp_path))[1]
    assert out.index("FOR A PERSON TO JUDGE: 1") < out.index("PASSED: 2") < out.index(SUMS)
    assert '<a href="/books"> "Books"' in out


def test_frame(tmp_path: pathlib.Path) -> None:
    """Of what stands in a frame the rules on whole pages are left out, and a line says so."""
    path = shop_file(tmp_path)
    path.write_text(json.dumps({**json.loads(path.read_text(encoding="utf-8")), "frame": 2}), encoding="utf-8")
    status, out, _ = silvervole("check", path, "--json", tmp_path / "found.json", env=desk(tmp_path))
    assert (status, out.splitlines()[1]) == (1, FRAME) and "2 failed, 0 to judge, 1 passed" in out and "cf77f2" not in out
    assert FRAME in (tmp_path / "found.json").read_text(encoding="utf-8")


@pytest.mark.parametrize("options, status, last", [
    (("--budget", "3"), 0, "1 page: 3 failed, 1 to judge, 2 passed, within the budget of 3"),
    (("--budget", "2"), 1, "1 page: 3 failed, 1 to judge, 2 passed, over the budget of 2")])
def test_budget(tmp_path: pathlib.Path, options: tuple[str, ...], status: int, last: str) -> None:
    """A budget lets so many failures pass."""
    got, out, _ = silvervole("check", shop_file(tmp_path), *options, env=desk(tmp_path))
    assert (got, out.splitlines()[-1]) == (status, last)


def test_pages_that_cannot_be_checked(tmp_path: pathlib.Path) -> None:
    """They are counted, and the greatest status counts; the others are told all the same."""
    status, out, error = silvervole("check", tmp_path / "none.html", shop_file(tmp_path), env=desk(tmp_path))
    assert status == 14 and SUMS in out and out.splitlines()[-1] == "1 page couldn't be checked"
    assert error == f"silvervole check: {tmp_path}/none.html: status 14: the page doesn't load: {tmp_path}/none.html is no file\n"


def test_folder(tmp_path: pathlib.Path) -> None:
    """What --out keeps is what compare reads, and nothing of it is new beside itself."""
    kept = tmp_path / "kept"
    assert silvervole("check", shop_file(tmp_path), "--out", kept, env=desk(tmp_path))[0] == 1
    assert sorted(path.suffix for path in kept.iterdir()) == [".json", ".txt"]
    status, out, _ = silvervole("compare", kept, kept)
    assert (status, out.splitlines()[-1]) == (0, "new failed 0, new to judge 0, mended 0, stay 4")


@pytest.mark.parametrize("status, says, does, got, told", [
    (8, "no memory", "", 8, "it is out of memory (it says: no memory)"),
    (5, "snapshot fault 4 Tree 5 TooDeep node 7", "", 5, "its input is no snapshot: it is nested more than 128 deep, at node 7 (it says: "),
    (5, "snapshot fault 2 Shape place 2 field tag", "", 5, "its input is no snapshot: the field tag is wrong in row 2 (it says: "),
    (0, "", "kill -9 $$", 21, "it was ended by the signal SIGKILL"),
    (77, "", "", 21, "it ended with status 77")])
def test_faults(tmp_path: pathlib.Path, status: int, says: str, does: str, got: int, told: str) -> None:
    """The desk's status is kept where it is one of its own, and its line is told in words."""
    env = desk(tmp_path, "", status, says, does)
    ended, out, error = silvervole("check", shop_file(tmp_path), env=env)
    assert ended == got and error.count("\n") == 1 and told in error and "the desk refuses the audit" in error
    assert out == "1 page couldn't be checked\n"
    ended, out, error = silvervole("audit", shop_file(tmp_path), env=env)
    assert told in error and out == "" and ended == (status if does == "" else 137)


def test_audit(tmp_path: pathlib.Path) -> None:
    """The report and the status are the program's, of a file and of standard input."""
    env = desk(tmp_path)
    assert silvervole("audit", shop_file(tmp_path), env=env) == (1, SHOP, "")
    assert silvervole("audit", env=env, stdin="{}") == (1, SHOP, "")
    assert silvervole("audit", tmp_path / "none", env=env)[::2] == (19, f"silvervole audit: {tmp_path}/none can't be read: No such file or directory\n")


def test_colours(tmp_path: pathlib.Path) -> None:
    """Colours and progress stand on a terminal alone, and no colour with NO_COLOR."""
    env = desk(tmp_path)
    status, got = at_terminal("check", shop_file(tmp_path), env=env)
    assert status == 1 and f"{ESCAPE}1;31mFAILED: 3" in got and "0 of 1 checked" in got
    status, got = at_terminal("check", shop_file(tmp_path), env={**env, "NO_COLOR": "1"})
    assert status == 1 and "FAILED: 3" in got and f"{ESCAPE}1;31m" not in got and f"{ESCAPE}36m" not in got
    _, got = at_terminal("check", shop_file(tmp_path), env={**env, "TERM": "dumb"})
    assert ESCAPE not in got
    assert ESCAPE not in "".join(map(str, silvervole("check", shop_file(tmp_path), env={**env, "TERM": "xterm"})))


def test_hostile(tmp_path: pathlib.Path) -> None:
    """What a page holds can't steer a terminal."""
    bad = "a\x1b[2J\u202e\r\nFAILED: 0 [bold]x[/bold]"
    page = {"url": "https://shop.example/", "nodes": [element(1, None, "html"), element(2, 1, "title"), words(3, 2, bad), element(6, 1, "a", title=bad)]}
    (tmp_path / "bad.json").write_text(json.dumps(page), encoding="utf-8")
    report = "page https://shop.example/\nc487ae node 6 failed no-name\npassed 0 failed 1 cantTell 0 inapplicable 0\n"
    env = desk(tmp_path, report)
    for got in (silvervole("check", tmp_path / "bad.json", env=env)[1], at_terminal("check", tmp_path / "bad.json", env=env)[1]):
        assert "\x1b[2J" not in got and "\u202e" not in got and "[bold]x[/bold]" in got and "\nFAILED: 0" not in got
