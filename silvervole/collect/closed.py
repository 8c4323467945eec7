"""Closed shadow trees, of which a page's own scripts see nothing: how many there are."""
from __future__ import annotations

from collections import Counter
from typing import Any

from .ends import first_line

MOST_NAMES = 5


# A frame may show a PDF, by a page of the browser's own that has closed shadow trees.
IS_HTML = "function () { return this.contentType === 'text/html' || this.contentType === 'application/xhtml+xml'; }"


def closed_note(browser: Any, with_frames: bool) -> str:
    """A line that counts the closed shadow trees of the page that the browser shows; empty where there is none."""
    from selenium.common.exceptions import InvalidSessionIdException, WebDriverException
    try:
        hosts = hosts_in(browser, with_frames)
    except InvalidSessionIdException:
        raise  # the browser ended
    except WebDriverException as error:
        return f"closed shadow trees can't be counted: {first_line(error)}"
    if not hosts:
        return ""
    names = [f"{name} ({count})" if count > 1 else name for name, count in sorted(hosts.items())]
    rest = f" and {len(names) - MOST_NAMES} more kinds" if len(names) > MOST_NAMES else ""
    number = sum(hosts.values())
    return (f"{number} closed shadow {'tree is' if number == 1 else 'trees are'} left out, of "
            f"{', '.join(names[:MOST_NAMES])}{rest}")


def hosts_in(browser: Any, with_frames: bool) -> Counter[str]:
    """How many elements of each tag have a closed shadow tree."""
    browser.execute_cdp_cmd("DOM.enable", {})
    # Nested as the document is, the answer would be too deep for the driver.
    nodes = browser.execute_cdp_cmd("DOM.getFlattenedDocument", {"depth": -1, "pierce": True})["nodes"]
    hosts: Counter[str] = Counter()
    for document, found in closed_hosts(nodes).items():
        if document is None or (with_frames and is_html(browser, document)):
            hosts += found
    browser.execute_cdp_cmd("DOM.disable", {})
    return hosts


def is_html(browser: Any, document: int) -> bool:
    """Whether a document, by its number in the browser, is an HTML page."""
    resolved = browser.execute_cdp_cmd("DOM.resolveNode", {"backendNodeId": document})["object"]["objectId"]
    asked = {"objectId": resolved, "functionDeclaration": IS_HTML, "returnByValue": True}
    return bool(browser.execute_cdp_cmd("Runtime.callFunctionOn", asked)["result"]["value"])


def closed_hosts(nodes: list[dict[str, Any]]) -> dict[int | None, Counter[str]]:
    """The tags of the hosts of closed shadow trees, from what the browser's DOM domain tells of a page.

    They are counted by the document that they are in: that of a frame by its number in the browser, the page's own under None.
    """
    above = {node["nodeId"]: node.get("parentId") for node in nodes}
    framed = {node["contentDocument"]["nodeId"]: node["contentDocument"]["backendNodeId"] for node in nodes if "contentDocument" in node}
    closed = []
    for node in nodes:
        for root in node.get("shadowRoots", ()):
            above[root["nodeId"]] = node["nodeId"]
            if root["shadowRootType"] == "closed":
                closed.append(node)

    def document_of(number: int | None) -> int | None:
        while number is not None and number not in framed:
            number = above.get(number)
        return None if number is None else framed[number]

    found: dict[int | None, Counter[str]] = {}
    for host in closed:
        found.setdefault(document_of(host["nodeId"]), Counter())[host["nodeName"].lower()] += 1
    return found
