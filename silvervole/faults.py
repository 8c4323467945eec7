"""What the desk's program means by its status, and by its line on standard error, in words."""
from __future__ import annotations

import re
import signal
from dataclasses import dataclass

from silvervole.collect.ends import End, one_line

# docs/use/desk.md has the statuses.
MEANINGS = {
    End.FAULT_WORDS: "it doesn't take its words",
    End.FAULT_READING: "it can't read its input",
    End.FAULT_WRITING: "it can't write its output",
    End.FAULT_SNAPSHOT: "its input is no snapshot",
    End.FAULT_STORE: "it can't open or use the store",
    End.FAULT_LISTENING: "it can't listen, or can't take a connection",
    End.FAULT_MEMORY: "it is out of memory",
    End.FAULT_EDITION: "the store is of another edition",
}
# docs/use/snapshot.md has the faults of a snapshot, and of its tree.
SNAPSHOT = re.compile(r"snapshot fault [0-9]+ (?P<name>[A-Za-z]+)(?: place (?P<row>[0-9]+) field (?P<field>[a-z]+))?"
                      r"(?: [0-9]+ (?P<tree>[A-Za-z]+)(?: node (?P<node>[0-9]+))?)?")
BROKEN = {
    "TooLong": "it has more than 8,388,608 bytes", "NotJson": "it isn't JSON in UTF-8", "BadUrl": "its url is no address of http or https",
    "Empty": "it has no node", "TooMany": "it has more than 10,000 nodes", "DoubleNumber": "two nodes have one number",
    "ParentUnknownOrNotOpen": "the parent of a node is neither the node before it nor around that", "RootNotElement": "its first node is a text",
    "TextHasKids": "a node stands in a text", "TooDeep": "it is nested more than 128 deep", "TooManyAttrs": "an element has more than 64 attributes",
    "TextTooLong": "a text has more than 65,536 bytes", "DoubleAttr": "an element has two attributes of one name",
    "EmptyName": "a number is 0, or a tag or the name of an attribute is empty",
    "ReferenceWeight": "its references lead to more text than the desk reads",
}
SIGNALLED = 128


@dataclass(frozen=True)
class Fault:
    """How the program ended, and what it said."""

    status: int
    line: str

    def __str__(self) -> str:
        said = f" (it says: {self.line})" if self.line else ""
        return f"{meaning(self)}{said}"


def fault_of(status: int, said: bytes) -> Fault:
    """The fault of a program that ended with this status, below 0 where a signal ended it."""
    return Fault(status if status >= 0 else SIGNALLED - status, one_line(said.decode("utf-8", "replace")))


def meaning(fault: Fault) -> str:
    """What a fault means, in words."""
    if fault.status > SIGNALLED:
        return f"it was ended by the signal {signal_name(fault.status - SIGNALLED)}"
    if found := SNAPSHOT.fullmatch(fault.line):
        return f"its input is no snapshot: {broken(found)}"
    return MEANINGS.get(End(fault.status), "") if fault.status in set(End) else f"it ended with status {fault.status}"


def broken(found: re.Match[str]) -> str:
    """What is wrong with a snapshot, and where."""
    if found["field"]:
        return f"the field {found['field']} is wrong" + (f" in row {found['row']}" if found["row"] != "0" else "")
    name = found["tree"] or found["name"]
    return BROKEN.get(name, name) + (f", at node {found['node']}" if found["node"] else "")


def signal_name(number: int) -> str:
    """The name of a signal, its number where it has none."""
    try:
        return signal.Signals(number).name
    except ValueError:
        return str(number)


def end_of(fault: Fault) -> End:
    """The status of a command that ends by the fault: the program's own, where it has one."""
    return End(fault.status) if fault.status in set(MEANINGS) else End.PROGRAM
