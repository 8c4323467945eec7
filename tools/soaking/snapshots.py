"""Random snapshots and edits, in the form in which the desk gives a page back, so that both can be compared."""
from __future__ import annotations

import copy
import random
from typing import Any

Row = dict[str, Any]
TAGS = ("p", "section", "ul", "li", "h2", "a", "button", "img", "input", "table", "nav")
ATTRIBUTES = {"a": (["href", "/hours"],), "img": (["src", "/a.png"], ["alt", "A shelf"]), "button": (["aria-label", "Lend"],),
              "input": (["role", "checkbox"], ["aria-checked", "false"], ["autocomplete", "name"])}
NAMES = ("class", "title", "lang", "aria-label", "role", "aria-hidden")
VALUES = ("", "en", "true", "Hours", "button", "xx", "Öffnungszeiten", "a b c")
WORDS = ("Hours", "Lend a book", "", "Öffnungszeiten — täglich", "read more", "\u4e2d\u6587")
FACTS = ("", "rv", "rvf", "rvft", "r")


def element(number: int, parent: int | None, tag: str, facts: str = "rv", *attrs: list[str]) -> Row:
    return {"attrs": [list(pair) for pair in attrs], "f": facts, "n": number, "ns": "html", "p": parent, "tag": tag}


def text(number: int, parent: int, words: str) -> Row:
    return {"f": "rv", "n": number, "p": parent, "text": words}


def some_row(chance: random.Random, number: int, parent: int) -> Row:
    """An element or a text."""
    if chance.random() < 0.4:
        return text(number, parent, chance.choice(WORDS))
    tag = chance.choice(TAGS)
    return element(number, parent, tag, chance.choice(FACTS), *(pair for pair in ATTRIBUTES.get(tag, ()) if chance.random() < 0.7))


def grown(chance: random.Random, rows: list[Row], size: int) -> list[Row]:
    """The rows with so many more, each below the row before it or one above that, so that they stay in document order."""
    above = {row["n"]: row["p"] for row in rows}
    for _ in range(size):
        spot = rows[-1]["n"] if "tag" in rows[-1] else rows[-1]["p"]
        while above[spot] is not None and above[above[spot]] is not None and chance.random() < 0.5:
            spot = above[spot]
        row = some_row(chance, max(above) + chance.randint(1, 3), spot)
        above[row["n"]] = spot
        rows.append(row)
    return rows


def snapshot(chance: random.Random, site: str, size: int | None = None) -> Row:
    """A page of a site, whose address has the site's name."""
    rows = [element(1, None, "html", "rv", *([["lang", chance.choice(("en", "xx", ""))]] if chance.random() < 0.8 else [])),
            element(2, 1, "head", ""), element(3, 2, "title", ""), text(4, 3, chance.choice(WORDS)), element(5, 1, "body")]
    return {"nodes": grown(chance, rows, size or chance.randint(0, 60)), "url": f"https://{site}.example/{chance.randint(1, 9)}"}


def below(rows: list[Row], number: int) -> list[Row]:
    """A row and all rows below it, in document order."""
    numbers, found = {number}, []
    for row in rows:
        if row["n"] == number or row["p"] in numbers:
            numbers.add(row["n"])
            found.append(row)
    return found


def place_in(rows: list[Row], parent: int, place: int) -> int:
    """Where a row is put in as a child at a place of its parent."""
    children = [index for index, row in enumerate(rows) if row["p"] == parent]
    if place < len(children):
        return children[place]
    last = below(rows, parent)[-1]
    return rows.index(last) + 1


def children_of(rows: list[Row], parent: int) -> int:
    return sum(row["p"] == parent for row in rows)


def edit(chance: random.Random, rows: list[Row]) -> tuple[Row, list[Row]]:
    """An edit that can be done, and the rows after it."""
    rows = copy.deepcopy(rows)
    row = chance.choice(rows[2:])
    parent = chance.choice([one for one in rows if one.get("tag") in ("body", "section", "p", "li", "nav")])["n"]
    kind = chance.choice(("setAttr", "dropAttr", "setText", "setFacts", "insert", "remove", "move"))
    if kind == "setFacts":
        row["f"] = chance.choice(FACTS)
        return {"op": kind, "node": row["n"], "f": row["f"]}, rows
    if kind in ("setAttr", "dropAttr", "setText"):
        return small_edit(chance, rows, row)
    subtree = below(rows, row["n"])
    if kind == "insert" or row["n"] <= 5 or parent in (one["n"] for one in subtree):
        made = some_row(chance, max(one["n"] for one in rows) + 1, parent)
        place = chance.randint(0, children_of(rows, parent))
        rows.insert(place_in(rows, parent, place), made)
        return {"op": "insert", "parent": parent, "place": place, "rows": [{**made, "p": None}]}, rows
    rows = [one for one in rows if one not in subtree]
    if kind == "remove":
        return {"op": kind, "node": row["n"]}, rows
    place = chance.randint(0, children_of(rows, parent))
    at = place_in(rows, parent, place)
    subtree[0]["p"] = parent
    return {"op": kind, "node": row["n"], "parent": parent, "place": place}, rows[:at] + subtree + rows[at:]


def small_edit(chance: random.Random, rows: list[Row], row: Row) -> tuple[Row, list[Row]]:
    """An edit of one row: its text, or one of its attributes."""
    if "text" in row:
        row["text"] = chance.choice(WORDS)
        return {"op": "setText", "node": row["n"], "text": row["text"]}, rows
    name, value = chance.choice(NAMES), chance.choice(VALUES)
    had = next((pair for pair in row["attrs"] if pair[0] == name), None)
    if had is not None and chance.random() < 0.5:
        row["attrs"].remove(had)
        return {"op": "dropAttr", "node": row["n"], "name": name}, rows
    if had is not None:
        had[1] = value
    else:
        row["attrs"].append([name, value])
    return {"op": "setAttr", "node": row["n"], "name": name, "value": value}, rows


def edits(chance: random.Random, page: Row) -> tuple[list[Row], Row]:
    """Edits that can be done, and the page after them."""
    rows, found = page["nodes"], []
    for _ in range(chance.randint(0, 5)):
        one, rows = edit(chance, rows)
        found.append(one)
    return found, {"nodes": rows, "url": page["url"]}
