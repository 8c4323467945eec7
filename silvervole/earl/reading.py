"""Reads EARL in any of its forms: JSON-LD, Turtle, RDF/XML."""
from __future__ import annotations

import json
from typing import Any

from silvervole.collect.ends import End, Stop, first_line, quiet_libraries

from .contexts import Copies, standing_alone

# What a reference is told from, which has no address: whoever reads it takes this away again.
BASE = "https://relative.invalid/"
TYPE = "http://www.w3.org/1999/02/22-rdf-syntax-ns#type"
FORMS = {"json-ld": "JSON-LD", "xml": "RDF/XML", "turtle": "Turtle"}


def form_of(data: bytes) -> str:
    """The form of what is written, by how it begins: a Turtle file may begin with a bracket too."""
    front = data.removeprefix(b"\xef\xbb\xbf").lstrip()
    if front.startswith(b"<") and b"xmlns" in front:
        return "xml"
    if front.startswith(b"{"):
        return "json-ld"
    return "json-ld" if front.startswith(b"[") and is_json(front) else "turtle"


def is_json(data: bytes) -> bool:
    """Whether bytes are JSON."""
    try:
        json.loads(data)
        return True
    except (ValueError, RecursionError):
        return False


class Statements:
    """What a file says of each thing, in the order of the file, which a graph of RDF hasn't."""

    def __init__(self) -> None:
        self.said: dict[Any, dict[str, dict[Any, None]]] = {}

    def add(self, thing: Any, name: str, value: Any) -> None:
        """Adds a statement."""
        self.said.setdefault(thing, {}).setdefault(name, {})[value] = None

    def values(self, thing: Any, name: str) -> list[Any]:
        """The values of a property of a thing."""
        return list(self.said.get(thing, {}).get(name, ()))

    def about(self, thing: Any) -> dict[str, dict[Any, None]]:
        """The properties of a thing, with their values."""
        return self.said.get(thing, {})


def is_blank(value: Any) -> bool:
    """Whether a thing has no name."""
    import rdflib
    return isinstance(value, rdflib.BNode)


def is_literal(value: Any) -> bool:
    """Whether a value is a text."""
    import rdflib
    return isinstance(value, rdflib.Literal)


def graph_into(statements: Statements) -> Any:
    """A graph that hands on each statement as soon as it is read."""
    try:
        import rdflib
        from rdflib.plugins.stores.memory import Memory
    except ImportError:
        raise Stop(End.BROWSER, "Python's rdflib isn't there (on Debian: apt-get install python3-rdflib)") from None
    quiet_libraries()

    class Handing(Memory):
        """The library's own store in memory."""

        def add(self, triple: tuple[Any, Any, Any], context: Any, quoted: bool = False) -> None:
            """Adds a statement."""
            statements.add(triple[0], str(triple[1]), triple[2])
            super().add(triple, context, quoted)

    return rdflib.Graph(store=Handing())


def read_statements(data: bytes, path: str, copies: Copies) -> Statements:
    """What the bytes say, all of it or a Stop. Nothing is fetched for it."""
    statements = Statements()
    graph, form = graph_into(statements), form_of(data)
    try:
        text = data.decode("utf-8-sig")
        given = json.dumps(standing_alone(json.loads(text), copies)) if form == "json-ld" else text
        graph.parse(data=given, format=form, publicID=BASE, **({"version": "1.1"} if form == "json-ld" else {}))
    except Stop:
        raise
    except UnicodeDecodeError:
        raise Stop(End.INPUT, f"{path} isn't in UTF-8") from None
    # A reader of RDF ends in errors of many kinds, of Python's own too.
    except Exception as error:
        raise Stop(End.INPUT, f"{path} is no {FORMS[form]}: {first_line(error)}") from None
    return statements
