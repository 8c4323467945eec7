"""A finding's fingerprint stays the same while its element does."""
from __future__ import annotations

import json
import pathlib
from typing import Any

from silvervole.formats.listing import Listing

from .samples import ROOT, SHOP, element, listing_of, run, shop, words


def marks(listing: Listing) -> dict[tuple[str, int], str]:
    """The fingerprints by rule and node."""
    return {(entry.rule.id, entry.target.number): entry.fingerprint for entry in listing}


def moved(report: str, more: int) -> str:
    """The report where all nodes from 6 on have numbers that are so much greater."""
    for number in (9, 7, 6):
        report = report.replace(f"node {number} ", f"node {number + more} ")
    return report


def test_numbers_move() -> None:
    """Paragraphs before the links move their numbers, and no fingerprint."""
    before, after = marks(listing_of(shop(), SHOP)), marks(listing_of(shop(before=3), moved(SHOP, 3)))
    assert list(before.values()) == list(after.values()) and len(set(before.values())) == 6


def test_outcomes_change() -> None:
    """What is mended, or judged, keeps its fingerprint."""
    mended = SHOP.replace("c487ae node 6 failed no-name", "c487ae node 6 passed ok").replace("passed 2 failed 7", "passed 3 failed 6")
    assert marks(listing_of(shop(), SHOP)) == marks(listing_of(shop(), mended))


def test_pages_states_and_rules_differ() -> None:
    """Another address, another state of the page and another rule make another fingerprint."""
    other = {**shop(), "url": "https://other.example/"}
    here, there = marks(listing_of(shop(), SHOP)), marks(listing_of(other, SHOP.replace("https://shop.example/", "https://other.example/")))
    opened = marks(listing_of({**shop(), "state": "menu open"}, SHOP))
    assert not set(here.values()) & set(there.values()) and not set(here.values()) & set(opened.values())
    assert here["2779a5", 1] != here["c4a8a4", 1]


def links(*attributes: dict[str, str], text: str = "") -> tuple[dict[str, Any], str]:
    """A page with these links, each failed, and its report."""
    rows = [element(1, None, "html")]
    for place, given in enumerate(attributes):
        rows += [element(2 * place + 2, 1, "a", **given), words(2 * place + 3, 2 * place + 2, text)]
    lines = [f"c487ae node {2 * place + 2} failed no-name" for place in range(len(attributes))]
    return {"url": "https://shop.example/", "nodes": rows}, "\n".join(
        ["page https://shop.example/", *lines, f"passed 0 failed {len(lines)} cantTell 0 inapplicable 0"]) + "\n"


def test_what_an_element_is_known_by() -> None:
    """An id for tests first, then an id that isn't counted, then its name; else the way to it."""
    def same(one: dict[str, str], other: dict[str, str], before: bool = True) -> bool:
        first, second = marks(listing_of(*links(one))), marks(listing_of(*links(*([{"href": "x"}] if before else []), other)))
        return list(first.values())[0] == list(second.values())[-1]

    assert same({"data-testid": "cart", "id": "a"}, {"data-testid": "cart", "id": "b"})
    assert same({"id": "cart", "title": "Cart"}, {"id": "cart", "title": "Basket"})
    assert same({"id": ":r1:", "title": "Cart"}, {"id": ":r7:", "title": "Cart"})
    assert same({"title": "Cart", "class": "a"}, {"title": "Cart", "class": "b"})
    assert not same({"href": "a"}, {"href": "a"}) and same({"href": "a"}, {"href": "b"}, before=False)


def test_equals_are_told_apart() -> None:
    """Of links that are known by the same each has its own, in their order."""
    made = list(marks(listing_of(*links({"title": "More"}, {"title": "More"}, {"title": "More"}))).values())
    assert len(set(made)) == 3
    assert list(marks(listing_of(*links({"title": "More"}, {"title": "More"}))).values()) == made[:2]


def test_an_old_version_hands_its_fingerprints_on(tmp_path: pathlib.Path) -> None:
    """The link got another id and the page another title: compared with the old version it is the same."""
    def compared(old: dict[str, Any], new: dict[str, Any], name: str) -> dict[tuple[str, int], str]:
        for file, text in (("old.json", json.dumps(old)), ("new.json", json.dumps(new)), ("audit.txt", SHOP)):
            (tmp_path / file).write_text(text, encoding="utf-8")
        assert run(ROOT / "collector" / "compare", tmp_path / "audit.txt", tmp_path / "audit.txt", "--old-snapshot", tmp_path / "old.json",
                   "--new-snapshot", tmp_path / "new.json", "--json", tmp_path / name)[0] == 0
        found = json.loads((tmp_path / name).read_text(encoding="utf-8"))["findings"]
        return {(one["rule"]["id"], one["node"]): one["fingerprint"] for one in found}

    new = shop(title="The shop", cart="basket")
    alone = marks(listing_of(new, SHOP))
    before = compared(shop(), shop(), "same.json")
    after = compared(shop(), new, "new.json")
    assert after == before and after["c487ae", 6] != alone["c487ae", 6]


def test_a_row_of_versions(tmp_path: pathlib.Path) -> None:
    """The third version has the fingerprint of the first, though the link got another id each time."""
    def audit(name: str, cart: str, *words: object) -> str:
        folder = tmp_path / name
        folder.mkdir()
        (folder / "shop.json").write_text(json.dumps(shop(cart=cart)), encoding="utf-8")
        (folder / "shop.txt").write_text(SHOP, encoding="utf-8")
        found = tmp_path / f"{name}.found"
        status, _, error = run(ROOT / "collector" / "compare", *(words or [folder]), folder, "--json", found)
        assert (status, error) == (0, "")
        return next(one["fingerprint"] for one in json.loads(found.read_text(encoding="utf-8"))["findings"] if one["node"] == 6)

    first = audit("first", "cart")
    second = audit("second", "basket", tmp_path / "first", "--earlier", tmp_path / "first.found")
    assert audit("third", "trolley", tmp_path / "second", "--earlier", tmp_path / "second.found") == second == first
    assert audit("alone", "trolley", tmp_path / "second") != first
    (tmp_path / "other").write_text("{}", encoding="utf-8")
    status, out, error = run(ROOT / "collector" / "compare", tmp_path / "first", tmp_path / "second", "--earlier", tmp_path / "other", "--csv", tmp_path / "c")
    assert (status, out) == (19, "") and "isn't the JSON of findings" in error
