"""The roles and names that the desk gives of the flat tree, against those of the browser's accessibility tree."""
from __future__ import annotations

import http.client
import json
import pathlib
import re
import subprocess
from typing import Any, Iterator

import pytest

from serving import Serving
from silvervole.collect.taking import Wanted, take

from ..support import DESK, OWN_PAGES, SOURCE, expect, form, open_file, page, same

ADDRESS = "https://roles.example/"
PAGES = ("components.html", "shadow.html", "menu.html", "dialog.html")
# The rules whose evidence is a node's role and name.
NAMING = {"97a4e1", "c487ae", "23a2a8", "59796f", "e086e5", "cae760", "ffd0e9", "7d6734"}
# The browser's words for roles that it calls otherwise than WAI-ARIA does.
ROLES = {"image": "img", "ComboBoxSelect": "combobox", "ComboBoxMenuButton": "combobox"}
# What the desk looks through where it judges what an element of a role owns, and the browser's nodes that are no elements.
THROUGH = {"tree": {"group"}, "listbox": {"group"}, "menu": {"group"}, "table": {"rowgroup"}, "grid": {"rowgroup"}}
WORDS = {"StaticText", "InlineTextBox", "ListMarker"}
NODES = f"""(() => {{
  let nodes = [];
  ({SOURCE})({json.dumps(ADDRESS)}, {{ shadow: true, nodes: (list) => {{ nodes = list.map((row) => row.node); }} }});
  return nodes;
}})()"""

# Where they differ on these pages: what the desk says, and what the browser says. docs/use/collecting.md says why.
DIFFERENCES = {
    ("shadow.html", "inert-button"): ("button x", "nothing"),
    ("shadow.html", "inert-frame"): ("- ", "nothing"),
    ("shadow.html", "area"): ("link x", "nothing"),
}
# How many names and how many elements that are asked what they own pages/owning.html has, and where these differ: of elements whose ids
# differ by a last digit what each has, sorted.
COMPARED = (23, 16)
OWNING = {
    "names": {
        "holder": (["button Holds this too"], ["button Holds toothis"]),
        "chain": (["button First"], ["button First second"]),
        "owner": (["button Shared", "button Shared"], ["button ", "button Shared"]),
        "lends": (["heading Lends this"], ["heading Lends"]),
        "refers": (["button Referred"], ["button Referred and more"]),
        "field": (["textbox Label"], ["textbox Label and more"]),
    },
    "owned": {
        "lending": (["listitem listitem"], ["listitem"]),
        "share": (["listitem", "listitem"], ["", "listitem"]),
        "ring": (["list", "list"], ["", "list"]),
        "box": (["listitem"], [""]),
        "far": ([""], ["menuitem"]),
    },
}

# A page of components, and one without shadow trees that is shown alike: the desk finds the same on both.
ALIKE = {
    "a table whose rows stand in a shadow tree": (
        "<x-t><template shadowrootmode=open><table><tr><th id=h><slot name=h></slot></th></tr><tr><td headers=h><slot name=c></slot></td></tr></table></template>"
        "<b slot=h>Open</b><i slot=c>9 to 5</i></x-t>",
        "<x-t><table><tr><th id=h><b>Open</b></th></tr><tr><td headers=h><i>9 to 5</i></td></tr></table></x-t>"),
    "rows that are slotted into a table of roles": (
        "<x-t role=table aria-label=T><template shadowrootmode=open><slot></slot></template><x-r role=row><template shadowrootmode=open>"
        "<slot></slot></template><span role=cell>1</span></x-r></x-t>",
        "<x-t role=table aria-label=T><x-r role=row><span role=cell>1</span></x-r></x-t>"),
    "a list whose items are slotted": (
        "<x-l><template shadowrootmode=open><ul role=list><slot></slot></ul></template><li>1</li><li>2</li></x-l>",
        "<x-l><ul role=list><li>1</li><li>2</li></ul></x-l>"),
    "a list without items": ("<x-l><template shadowrootmode=open><div role=list><slot></slot></div></template></x-l>", "<x-l><div role=list></div></x-l>"),
    "a reference that leads nowhere, since its id is of another tree": (
        "<p id=hint>x</p><x-f><template shadowrootmode=open><input aria-labelledby=hint aria-describedby=hint></template></x-f>",
        "<p id=hint>x</p><x-f><input aria-labelledby=none aria-describedby=none></x-f>"),
    "a skip link that is a component": (
        "<x-s><template shadowrootmode=open><a href=#main>Skip</a></template></x-s><main id=main><h1>t</h1></main>",
        "<x-s><a href=#main>Skip</a></x-s><main id=main><h1>t</h1></main>"),
    "a stop in what assistive technology is not told": (
        "<x-h aria-hidden=true><template shadowrootmode=open><button>x</button></template></x-h>", "<x-h aria-hidden=true><button>x</button></x-h>"),
}


class Desk:
    """The built desk with a site, at a port."""

    def __init__(self, port: int) -> None:
        self.port = port
        self.ask("PUT", "/sites/roles")

    def ask(self, method: str, path: str, body: str = "", **fields: str) -> Any:
        """The body of a reply."""
        connection = http.client.HTTPConnection("127.0.0.1", self.port, timeout=60)
        connection.request(method, path, body.encode("utf-8"), {"x-caller": "ann", "connection": "close", **fields})
        answer = json.loads(connection.getresponse().read())
        connection.close()
        return answer

    def evidence(self, name: str, snapshot: str) -> list[tuple[str, int, str]]:
        """The rule, the node and the evidence of each outcome on a page."""
        self.ask("PUT", f"/sites/roles/pages/{name}", snapshot, **{"x-rev": "0"})
        outcomes = self.ask("GET", f"/sites/roles/pages/{name}/outcomes")["outcomes"]
        return [(one["rule"], one["node"], one["evidence"]) for one in outcomes]

    def said(self, name: str, snapshot: str) -> dict[int, tuple[str, ...]]:
        """The role and the name of each node of a page for which a rule gives them."""
        return {node: tuple(evidence.split("\n", 1)) for rule, node, evidence in self.evidence(name, snapshot) if rule in NAMING}


@pytest.fixture
def desk() -> Iterator[Desk]:
    """The built desk, in memory."""
    with Serving() as serving:
        yield Desk(serving.port)


def rows_in(browser: Any) -> dict[int, int]:
    """The number of the row of each node of the page that the browser shows, by the browser's own number."""
    browser.execute_cdp_cmd("DOM.getDocument", {"depth": 0})
    nodes = browser.execute_cdp_cmd("Runtime.evaluate", {"expression": NODES})["result"]["objectId"]
    listed = browser.execute_cdp_cmd("Runtime.getProperties", {"objectId": nodes, "ownProperties": True})["result"]
    return {browser.execute_cdp_cmd("DOM.describeNode", {"objectId": one["value"]["objectId"]})["node"]["backendNodeId"]: int(one["name"]) + 1
            for one in listed if one["name"].isdigit()}


def nodes_in(browser: Any) -> list[dict[str, Any]]:
    """The nodes of the browser's accessibility tree."""
    return browser.execute_cdp_cmd("Accessibility.getFullAXTree", {})["nodes"]


def role_in(node: dict[str, Any]) -> str:
    """The role that the browser gives a node, in WAI-ARIA's words."""
    role = node.get("role", {}).get("value", "")
    return ROLES.get(role, role)


def browser_says(browser: Any) -> dict[int, tuple[str, str]]:
    """The role and the name that the browser gives each row of the page that it shows."""
    rows = rows_in(browser)
    return {rows[node["backendDOMNodeId"]]: (role_in(node), " ".join(node.get("name", {}).get("value", "").split()))
            for node in nodes_in(browser) if node.get("backendDOMNodeId") in rows and not node.get("ignored")}


def browser_owns(browser: Any) -> dict[int, str]:
    """The roles of what each row owns in the browser's accessibility tree, through what the desk looks through."""
    rows, nodes = rows_in(browser), {node["nodeId"]: node for node in nodes_in(browser)}

    def owned(node: dict[str, Any], through: set[str]) -> list[str]:
        found: list[str] = []
        for kid in (nodes[one] for one in node.get("childIds", []) if one in nodes):
            if kid.get("ignored") or role_in(kid) in {"generic", "none"} | through:
                found += owned(kid, through)
            elif role_in(kid) not in WORDS:
                found.append(role_in(kid))
        return found

    return {rows[node["backendDOMNodeId"]]: " ".join(owned(node, THROUGH.get(role_in(node), set())))
            for node in nodes.values() if node.get("backendDOMNodeId") in rows}


def report_on(browser: Any, body: str) -> list[str]:
    """The lines of the desk's report on a page."""
    with page(f"<title>t</title>{body}") as path:
        open_file(browser, path)
        text = take(browser, ADDRESS, Wanted(shadow=True)).text
    done = subprocess.run([str(DESK), "-", "audit"], input=text.encode("utf-8"), capture_output=True, check=False)
    return done.stdout.decode("utf-8").splitlines()


@pytest.mark.desk
def test_findings_alike(browser: Any) -> None:
    """The desk finds on a page of components what it finds on the page that is shown."""
    for what, (shadow, light) in ALIKE.items():
        found = report_on(browser, shadow)
        expect(f"{what}: it is audited", len(found) > 2)
        same(what, found, report_on(browser, light))


@pytest.mark.desk
def test_roles_and_names(browser: Any, desk: Desk) -> None:
    """They are the same, but for the differences that docs/use/collecting.md tells."""
    found = {}
    compared = 0
    for name in PAGES:
        open_file(browser, OWN_PAGES / name)
        text = take(browser, ADDRESS, Wanted(shadow=True)).text
        rows = {row["n"]: row for row in form.check(text.encode("utf-8"))}
        theirs = browser_says(browser)
        for number, ours in desk.said(pathlib.Path(name).stem, text).items():
            compared += 1
            if theirs.get(number) != ours:
                identity = (form.attr(rows[number], "id") or f"{rows[number]['tag']} {number}").partition("@")[0]
                found[name, identity] = (" ".join(ours), " ".join(theirs.get(number, ("nothing",))))
    expect("roles and names were compared", compared > 40, compared)
    same("where the desk and the browser differ", found, DIFFERENCES)


def differing(ours: dict[int, str], theirs: dict[int, str], rows: dict[int, dict[str, Any]]) -> dict[str, tuple[list[str], list[str]]]:
    """Where the desk and the browser say other things of elements with ids, whose last digit is left aside."""
    found: dict[str, tuple[list[str], list[str]]] = {}
    for number, said in ours.items():
        if identity := form.attr(rows[number], "id"):
            desk_says, browser_says_so = found.setdefault(re.sub("-[0-9]$", "", identity), ([], []))
            desk_says.append(said)
            browser_says_so.append(theirs.get(number, "nothing"))
    return {identity: (sorted(one), sorted(other)) for identity, (one, other) in found.items() if sorted(one) != sorted(other)}


@pytest.mark.desk
def test_owning(browser: Any, desk: Desk) -> None:
    """Where elements own others by aria-owns, names and what is owned are the same, but for the differences that docs/use/collecting.md tells."""
    open_file(browser, OWN_PAGES / "owning.html")
    text = take(browser, ADDRESS, Wanted(shadow=True)).text
    rows = {row["n"]: row for row in form.check(text.encode("utf-8"))}
    evidence = desk.evidence("owning", text)
    names = {node: said.replace("\n", " ") for rule, node, said in evidence if rule in NAMING}
    owned = {node: said for rule, node, said in evidence if rule == "bc4a75"}
    same("how many were compared", (len(names), len(owned)), COMPARED)
    same("the names that differ", differing(names, {node: " ".join(said) for node, said in browser_says(browser).items()}, rows), OWNING["names"])
    same("the owned elements that differ", differing(owned, browser_owns(browser), rows), OWNING["owned"])
