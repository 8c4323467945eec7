"""Selects elements of a snapshot by CSS and XPath, as a browser would those of the page."""
from __future__ import annotations

import re
from typing import Any

from silvervole import check_form
from silvervole.collect.ends import End, Stop
from silvervole.view.page import Node, Page

# What XML takes for no character.
NO_XML = re.compile("[\x00-\x08\x0b\x0c\x0e-\x1f\ud800-\udfff\ufffe\uffff]")
# In HTML the names in an XPath are of any case, and mostly without a prefix. What stands in quotes stays as it is.
LITERAL = re.compile(r"""("[^"]*"|'[^']*')""")
PREFIX = re.compile(r"(?<![\w.-])[A-Za-z_][\w.-]*:(?=[A-Za-z_*])")
BY_ID = re.compile(r"""id\(("[^"]*"|'[^']*')\)""")
# The name of an element whose own is none in XML.
NAMELESS = "_"


class Unreadable(Exception):
    """An expression that can't be read."""


class Elements:
    """The elements of a page as libxml2 has them, without name spaces, names in lower case."""

    def __init__(self, page: Page) -> None:
        try:
            import cssselect
            import lxml.etree
        except ImportError:
            raise Stop(End.BROWSER, "Python's lxml and cssselect aren't there, by which pointers are read "
                                    "(on Debian: apt-get install python3-lxml python3-cssselect)") from None
        self.etree, self.css_errors = lxml.etree, (cssselect.SelectorError, cssselect.ExpressionError, RecursionError)
        self.translator = cssselect.HTMLTranslator()
        self.made: dict[int, Any] = {}
        for node in page.nodes.values():
            self.add(node)
        self.tree = self.made[page.root.number].getroottree()
        self.numbers = {element: number for number, element in self.made.items()}

    def add(self, node: Node) -> None:
        """Adds a node below its parent."""
        around = self.made[node.parent.number] if node.parent is not None else None
        if node.is_element:
            self.made[node.number] = self.element(node, around)
        elif around is not None and len(around):
            around[-1].tail = (around[-1].tail or "") + NO_XML.sub("", node.words)
        elif around is not None:
            around.text = (around.text or "") + NO_XML.sub("", node.words)

    def element(self, node: Node, around: Any) -> Any:
        """The element of a node; attributes whose names are none in XML are left out."""
        try:
            made = self.etree.Element(node.folded)
        except ValueError:
            made = self.etree.Element(NAMELESS)
        for name, value in node.attributes:
            try:
                made.set(check_form.folded(name), NO_XML.sub("", value))
            except ValueError:
                pass
        if around is not None:
            around.append(made)
        return made

    def by_css(self, selector: str) -> list[int]:
        """The numbers of the elements that a CSS selector matches, in document order."""
        try:
            return self.found(self.translator.css_to_xpath(selector))
        except self.css_errors as error:
            raise Unreadable(str(error)) from None

    def by_xpath(self, expression: str) -> list[int]:
        """The numbers of the elements that an XPath leads to from the document, in document order."""
        parts = LITERAL.split(BY_ID.sub(r"//*[@id=\1]", expression))
        plain = "".join(part if place % 2 else PREFIX.sub("", part).lower() for place, part in enumerate(parts))
        return self.found(plain if plain.startswith(("/", "(")) else f"/{plain}")

    def found(self, expression: str) -> list[int]:
        """The numbers of the elements that an XPath of this tree leads to."""
        try:
            found = self.tree.xpath(expression)
        except self.etree.XPathError as error:
            raise Unreadable(str(error)) from None
        return [self.numbers[one] for one in found if one in self.numbers] if isinstance(found, list) else []
