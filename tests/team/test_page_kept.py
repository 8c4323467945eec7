"""The page to judge on shows what is kept: one's sites, members, and what people said of a finding; and sites, members and pages are changed there."""
from __future__ import annotations

import json
import pathlib
from typing import Any

from ..support import SITE, expect, same
from .asking import ask
from .packages import BROWSER, PROXY, needs
from .proxies import Proxy
from .reader import Reader, checked, signed_in
from .test_page import begin, fill, outcomes, submit

pytestmark = needs(*PROXY, *BROWSER)


def titled(reader: Reader, title: str) -> None:
    """Waits for a view with this title."""
    reader.wait(title, f"return document.getElementById('title').innerText === {json.dumps(title)}")
    reader.settle()


def typed(reader: Reader, field: str, text: str) -> None:
    """Types a text into a field, by the keyboard, in place of what stands there."""
    reader.tab_to(f"the field {field}", f"at.id === '{field}'")
    reader.browser.execute_script("document.activeElement.select()")
    reader.keys(text)


def pressed(reader: Reader, what: str) -> None:
    """Goes to a button or a link with these words, and presses it by the keyboard."""
    from selenium.webdriver.common.keys import Keys
    reader.tab_to(what, f"at.innerText === {json.dumps(what)}")
    reader.keys(Keys.ENTER)


def rows(reader: Reader, section: str) -> list[list[str]]:
    """The cells of a section's table."""
    return reader.browser.execute_script(
        "return [...document.querySelectorAll(`section[aria-labelledby=${arguments[0]}] tbody tr`)].map((row) => [...row.cells].map((cell) => cell.innerText))", section)


def told(reader: Reader, what: str, says: str) -> None:
    """Expects a refusal in plain words, which is accessible."""
    reader.wait(what, "return document.querySelector('.told')")
    reader.settle()
    expect(f"{what}: it says so", says in reader.text(".told"), reader.text(".told"))
    checked(reader, what)


def own_sites(reader: Reader) -> None:
    """The start has each of one's sites with the role there, and nobody else's; a site is made there."""
    ask(reader.proxy, "PUT /sites/zoo", b"", signed_in("zoe"))
    reader.sign_in("bob")
    reader.open("")
    same("bob's sites", rows(reader, "own"), [["library", "judge"]])
    reader.sign_in("dan")
    reader.open("")
    expect("who is no member", "You are no member of a site" in reader.text("main"), reader.text("main"))
    checked(reader, "the start of a stranger")
    typed(reader, "new", "library")
    pressed(reader, "Make the site")
    told(reader, "a site that is there", "There is a site of this name already.")
    typed(reader, "new", "dans")
    pressed(reader, "Make the site")
    titled(reader, "Site dans")
    expect("it says that the site is there", "you own it" in reader.text("#status"), reader.text("#status"))
    same("the desk has it", json.loads(ask(reader.proxy, "GET /memberships", None, signed_in("dan")).body),
         {"memberships": [{"role": "owner", "site": "dans"}]})


def members(reader: Reader) -> None:
    """Owners add, change and remove members; the desk's refusal is told in plain words; nobody else is offered a form."""
    from selenium.webdriver.common.keys import Keys
    reader.sign_in("bob")
    reader.open("?site=library&show=members")
    same("all members", rows(reader, "members"), [["ann", "owner"], ["bob", "judge"], ["cid", "judge"], ["rea", "reader"]])
    expect("a judge is offered no form", "takes an owner" in reader.text("main")
           and not reader.browser.execute_script("return document.getElementById('role')"))
    checked(reader, "members, to a judge")
    reader.sign_in("ann")
    reader.open("?site=library&show=members")
    checked(reader, "members, to an owner")
    typed(reader, "member", "dora")
    reader.tab_to("the role", "at.id === 'role'")
    reader.keys(Keys.ARROW_DOWN, Keys.ARROW_DOWN)
    pressed(reader, "Set the role")
    reader.wait("dora is there", "return document.getElementById('status').textContent.includes('dora is an editor now')")
    same("with her role", rows(reader, "members")[3][:2], ["dora", "editor"])
    pressed(reader, "Change the role of dora")
    reader.wait("the form is hers", "return document.getElementById('member')?.value === 'dora'")
    reader.settle()
    reader.tab_to("the role", "at.id === 'role'")
    reader.keys(Keys.END)
    pressed(reader, "Set the role")
    reader.wait("dora is gone", "return document.getElementById('status').textContent.includes('no member any more')")
    same("the others stay", [row[0] for row in rows(reader, "members")], ["ann", "bob", "cid", "rea"])
    typed(reader, "member", "ann")
    pressed(reader, "Set the role")
    told(reader, "one's own role", "another owner has to")


def puts_pages(reader: Reader, folder: pathlib.Path) -> None:
    """A snapshot from a file is put, as a page and as its next version; one that is none is refused in plain words; a page is taken away after a question."""
    broken = folder / "broken.json"
    broken.write_text("{", encoding="utf-8")

    def choose(file: pathlib.Path) -> None:
        reader.browser.find_element("id", "snapshot").send_keys(str(file))

    reader.sign_in("ann")
    reader.open("?site=library&show=put")
    checked(reader, "putting a page")
    typed(reader, "page", "fresh")
    choose(broken)
    pressed(reader, "Put the page")
    told(reader, "a file that is no snapshot", "no JSON")
    choose(SITE / "hours.json")
    pressed(reader, "Put the page")
    titled(reader, "Page fresh of library")
    pressed(reader, "Put its next version")
    titled(reader, "Put a page of library")
    typed(reader, "page", "fresh")
    expect("it says what is there", "There is a page fresh" in reader.text("main"), reader.text("main"))
    revision = json.loads(ask(reader.proxy, "GET /sites/library/pages/fresh", None, signed_in("ann")).body)["rev"]
    ask(reader.proxy, "PUT /sites/library/pages/fresh", (SITE / "hours.json").read_bytes(), {**signed_in("ann"), "x-rev": str(revision)})
    choose(SITE / "hours.json")
    pressed(reader, "Put the page")
    told(reader, "a page that was changed in between", f"its revision is {revision + 1} now")
    reader.open("?site=library&page=fresh&show=drop")
    checked(reader, "the question before a page goes")
    pressed(reader, "Keep it")
    titled(reader, "Page fresh of library")
    pressed(reader, "Take this page away")
    titled(reader, "Take fresh of library away?")
    ask(reader.proxy, "PUT /sites/library/pages/fresh", (SITE / "hours.json").read_bytes(), {**signed_in("ann"), "x-rev": str(revision + 1)})
    pressed(reader, "Take the page away")
    told(reader, "a page that was changed before it went", f"its revision is {revision + 2} now")
    pressed(reader, "Ask again of the page as it is now")
    reader.settle()
    pressed(reader, "Take the page away")
    titled(reader, "Site library")
    expect("it says so", "The page fresh is gone." in reader.text("#status"), reader.text("#status"))
    same("it is gone", ask(reader.proxy, "GET /sites/library/pages/fresh", None, signed_in("ann")).status, 404)
    reader.sign_in("bob")
    reader.open("?site=library&page=home&show=drop")
    expect("a judge is asked nothing", "takes an editor" in reader.text("main"), reader.text("main"))


def histories(reader: Reader) -> None:
    """What people said of a finding stands beside it, with what counts and why the rest doesn't; judging again begins from what counts."""
    one: dict[str, Any] = next(one for one in outcomes(reader.proxy) if one["rule"] == "b49b2e" and one["by"] == "")
    place = f"{one['rule']}-{one['node']}"
    reader.sign_in("bob")
    begin(reader, place, "passed", "It says what stands below it.")
    reader.browser.execute_script("const alone = document.querySelector('[name=alone]'); if (alone) alone.checked = true")
    submit(reader)
    reader.sign_in("cid")
    reader.open(f"?site=library&page=home&judge={place}")
    expect("what bob said", "Passed, by bob. It counts." in reader.text(".history")
           and "It says what stands below it." in reader.text(".history"), reader.text("main"))
    same("judging again begins from there", reader.browser.execute_script(
        "return [document.querySelector('[name=verdict]:checked')?.value, document.getElementById('note').value]"), ["passed", "It says what stands below it."])
    checked(reader, "a finding with its history")
    begin(reader, place, "failed", "It doesn't.")
    submit(reader)
    reader.open(f"?site=library&page=home&judge={place}")
    expect("the later one counts", "Passed, by bob. It doesn't count: a later judgement took its place." in reader.text(".history")
           and "Failed, by cid. It counts." in reader.text(".history"), reader.text(".history"))
    reader.open(f"?site=library&page=home&rule={one['rule']}&node={one['node']}")
    reader.tab_to("the history", "at.tagName === 'SUMMARY' && at.innerText.startsWith('2 judgements')")
    reader.keys(" ")
    expect("a page's findings have it too", "by cid. It counts." in reader.text(".target .history"), reader.text("main"))
    checked(reader, "a page with a history")


def test_what_is_kept(browser: Any, sign_on: Proxy, tmp_path: pathlib.Path) -> None:
    """One's sites, members, pages from files, and histories, by the keyboard, in each state."""
    fill(sign_on)
    reader = Reader(browser, sign_on)
    own_sites(reader)
    members(reader)
    puts_pages(reader, tmp_path)
    histories(reader)
