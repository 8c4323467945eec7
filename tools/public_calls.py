"""The public calls of crates with their clauses, read from the sources: for tools/calls and tools/contracts."""
import pathlib
import re
from typing import Iterator, NamedTuple

ROOT = pathlib.Path(__file__).resolve().parent.parent
OWNER = re.compile(r"(?:impl|pub trait)(?:<.*>)? ?(?:.* for )?(\w+)")
CALL = re.compile(r"( *)(pub )?(?:const )?fn (\w+)")
CLAUSE = re.compile(r"^\s*ensures\*?\s+(\w+)?", re.MULTILINE)
TESTING = ("test_", "fixture_")


class Call(NamedTuple):
    """A public call: where it stands, its name, its clauses, and what it says of itself."""
    place: str
    name: str
    clauses: list[str]
    says: str


def ends_head(line: str, margin: str, first: bool) -> bool:
    """Whether the head of a function with this margin ends on a line: its body begins there, or it has none."""
    return line.endswith(";") or line.startswith(margin + "{") or line.endswith("{") and (first or line.startswith(margin + ")"))


def head_at(lines: list[str], number: int, margin: str) -> str:
    """The head of the function that begins on a line."""
    end = number
    while end < len(lines) - 1 and not ends_head(lines[end], margin, end == number):
        end += 1
    return "\n".join(lines[number:end + 1])


def sentence_above(lines: list[str], number: int) -> str:
    """The first sentence of the documentation above a line."""
    start = number
    while start and lines[start - 1].strip().startswith(("///", "#[", ")]", "using(", "unfolding(", "crate::")):
        start -= 1
    text = " ".join(line.strip().removeprefix("///").strip() for line in lines[start:number] if line.strip().startswith("///"))
    found = re.match(r".*?\.(?= |$)", text)
    return found.group() if found else text


def calls_in(path: pathlib.Path) -> Iterator[Call]:
    """The public calls of a file."""
    lines, owner, trait = path.read_text(encoding="utf-8").splitlines(), "", False
    for number, line in enumerate(lines):
        if found := OWNER.match(line):
            owner, trait = found.group(1) + "::", line.startswith("pub trait")
        elif line.startswith("}"):
            owner, trait = "", False
        elif (found := CALL.match(line)) and (found.group(2) or trait):
            clauses = [name or "-" for name in CLAUSE.findall(head_at(lines, number, found.group(1)))]
            yield Call(f"{path.relative_to(ROOT)}:{number + 1}", owner + found.group(3), clauses, sentence_above(lines, number))


def product_crates() -> list[str]:
    """The crates that the product stands on, in the order of crates.txt: all but tests and what is made for them."""
    names = re.findall(r"^(\w+):", (ROOT / "crates.txt").read_text(encoding="utf-8"), re.MULTILINE)
    return [name for name in names if not name.startswith(TESTING)]


def calls_of(crate: str) -> Iterator[Call]:
    """The public calls of a crate."""
    for path in sorted((ROOT / "crates" / crate / "src").rglob("*.rt")):
        yield from calls_in(path)
