"""What the sources of the program say of its rules and criteria, read by a small parser: for tools/test-rules."""
from __future__ import annotations

import os
import pathlib
import re
from dataclasses import dataclass, field
from functools import lru_cache
from typing import Iterator

from serving import ROOT

CRATES = pathlib.Path(ROOT, "crates")
INFO = re.compile(r'no: RuleNo\(([\w:]+)\),\s*id: \*b"(\w+)",\s*applies: Class::(\w+),\s*expects: Class::(\w+),\s*inputs: \[([^\]]+)\]')
OWN = re.compile(r"^impl (\w+) \{\n(?:    ///.*\n)*    pub const NO: u16 = (\d+);\n.*?^    pub const INFO: RuleInfo = RuleInfo \{(.*?)^    \};",
                 re.MULTILINE | re.DOTALL)
COMPOSITE = re.compile(r"^(?:pub )?const (\w+): RuleInfo = RuleInfo \{(.*?)^\};", re.MULTILINE | re.DOTALL)
FURTHER = re.compile(r"^    (\w+)(?:::INFO)?,$", re.MULTILINE)
TABLE = re.compile(r"^macro_rules! rules \{.*?\$made!\(\$given\n(.*?)^        \)", re.MULTILINE | re.DOTALL)
FUNCTION = re.compile(r"^( *)(?:pub(?:\(\w+\))? )?fn (\w+)(.*?)^\1\{?\}$", re.MULTILINE | re.DOTALL)
IMPORT = re.compile(r"^use (?:crate::)?(\w+)::(?:(\w+)|\{([^}]*)\});", re.MULTILINE)
ARM = re.compile(r"(?:(\w+)::(\w+) => )?(?:Finding::(\w+)\()?Reason::(\w+)")
# The outcome of each way to make a finding.
OUTCOMES = {"failed": "failed", "cant_tell": "cantTell", "passed": "passed"}


@dataclass(frozen=True)
class Info:
    """What a rule says of itself: its number, id and classes, and the numbers of its inputs."""

    number: int
    id: str
    applicability: str
    expectation: str
    inputs: tuple[int, ...] = ()


@dataclass(frozen=True)
class Criterion:
    """A success criterion: its number, level and name, and the numbers of the rules that count under it."""

    number: str
    level: str
    name: str
    rules: tuple[int, ...]


@dataclass
class Source:
    """A file of a crate: its functions by their names, and of which module or crate each name comes that it imports."""

    path: pathlib.Path
    text: str
    functions: dict[str, str] = field(default_factory=dict)
    imports: dict[str, str] = field(default_factory=dict)


@lru_cache(maxsize=None)
def source(path: pathlib.Path) -> Source:
    """A file that is read."""
    text = path.read_text(encoding="utf-8")
    imports = {name.strip(): found[1] for found in IMPORT.finditer(text) for name in (found[2] or found[3]).split(",") if name.strip()}
    return Source(path, text, {found[2]: found[3] for found in FUNCTION.finditer(text)}, imports)


def info_in(text: str, numbers: dict[str, int]) -> Info:
    """The info that a text of the sources has, whose numbers are written as such, or by these names."""
    told = INFO.search(text)
    if not told:
        raise SystemExit(f"no info can be read: {text}")
    number, *inputs = [numbers[word] if "::" in word else int(word) for word in re.findall(r"\w+::NO|\d+", f"{told[1]} {told[5].split(';')[0]}")]
    return Info(number, told[2], told[3], told[4], tuple(one for one in inputs if one != 0))


def infos() -> list[Info]:
    """The rules of the book of forty, in its order: those of the table of the book of thirty stand first."""
    text = (CRATES / "rule_book" / "src" / "table.rt").read_text(encoding="utf-8")
    known = own_by_name()
    numbers = {f"{name}::NO": info.number for name, info in known.items()}
    known |= {name: info_in(told, numbers) for name, told in COMPOSITE.findall(text)}
    table = TABLE.search(text)
    thirty = re.findall(r"\w+", table[1] if table else "")
    text = (CRATES / "book_forty" / "src" / "table.rt").read_text(encoding="utf-8")
    forty = FURTHER.findall(text[text.index("static INFOS"):text.index("];")])
    if forty[:len(thirty)] != thirty:
        raise SystemExit("the book of forty doesn't begin with the book of thirty")
    return [known[name] for name in forty]


def own_by_name() -> dict[str, Info]:
    """What each atomic rule says of itself, by its type."""
    return {found[1]: info_in(found[3], {"Self::NO": int(found[2])}) for path in own_infos() if (found := OWN.search(source(path).text))}


def own_infos() -> dict[pathlib.Path, Info]:
    """What each atomic rule says of itself, by its file."""
    found = {}
    for path in sorted(CRATES.glob("rules_*/src/*.rt")):
        if told := OWN.search(source(path).text):
            found[path] = info_in(told[3], {"Self::NO": int(told[2])})
    return found


def criteria() -> list[Criterion]:
    """The criteria in the order of their numbers."""
    text = (CRATES / "reports" / "src" / "criterion.rt").read_text(encoding="utf-8")
    names = {variant: name for name, variant in re.findall(r"^    /// [0-9.]+ (.*)\.\n    (\w+),$", text, re.MULTILINE)}
    numbers = dict(re.findall(r'Criterion::(\w+) => "([0-9.]+)"', text))
    rules = {variant: tuple(map(int, listed.split(","))) for variant, listed in re.findall(r"Criterion::(\w+) => &\[([^\]]+)\]", text)}
    levels = {variant: level for arm, level in re.findall(r"((?:Criterion::\w+\s*\|?\s*)+)=> Level::(\w+)", text)
              for variant in re.findall(r"Criterion::(\w+)", arm)}
    order = re.findall(r"Criterion::(\w+),", text[text.index("pub const CRITERIA"):text.index("];")])
    return [Criterion(numbers[one], levels[one], names[one], rules[one]) for one in order]


def reason_words() -> dict[str, str]:
    """The word of each reason, by its variant."""
    return dict(re.findall(r'Reason::(\w+) => "([a-z-]+)"', (CRATES / "rule_core" / "src" / "reason.rt").read_text(encoding="utf-8")))


def reached(path: pathlib.Path) -> list[tuple[Source, str]]:
    """The functions of a rule's file, and those of crates of rules that they call by a name that they import or have beside them."""
    todo = [(source(path), name) for name in source(path).functions]
    for file, name in todo:
        for word in set(re.findall(r"\w+", file.functions[name])):
            todo += [one for one in called(file, word) if one not in todo]
    return todo


def called(file: Source, word: str) -> list[tuple[Source, str]]:
    """The functions that a word of a file may mean: one of them, or those beside a type that is imported."""
    if word in file.functions:
        return [(file, word)]
    if word not in file.imports:
        return []
    if file.imports[word].startswith("rules_"):
        return [(source(path), word) for path in sorted((CRATES / file.imports[word] / "src").glob("*.rt")) if word in source(path).functions]
    path = file.path.with_name(f"{file.imports[word]}.rt")
    if not path.is_file():
        return []
    module = source(path)
    return [(module, word)] if word in module.functions else [(module, name) for name in module.functions] if word[0].isupper() else []


def reasons(path: pathlib.Path) -> set[tuple[str, str]]:
    """The reasons that a rule's functions may give, each with its outcome. Of a table by variants those count that its file names."""
    words, rule = reason_words(), source(path).text
    found = set()
    for file, name in reached(path):
        for kind, variant, way, reason in ARM.findall(file.functions[name]):
            if kind and f"{kind}::" in rule and f"{kind}::{variant}" not in rule:
                continue
            found.add((words[reason], OUTCOMES[way] if way else outcome_in(file, name, path)))
    return found


def outcome_in(file: Source, name: str, path: pathlib.Path) -> str:
    """The outcome of a reason that a function only names: it hands the reason back, or on to another function."""
    ways = set(re.findall(rf"Finding::(\w+)\(self\.{name}\(\)\)", file.text))
    for word in set(re.findall(r"(\w+)\([^()]*(?:\([^()]*\)[^()]*)*Reason::", file.functions[name])):
        for module, helper in called(file, word):
            ways |= set(re.findall(r"Finding::(\w+)\([a-z_]+\)", module.functions[helper]))
    if len(ways) != 1:
        raise SystemExit(f"{os.path.relpath(path, ROOT)}: {name} names a reason, and the outcome can't be read: {sorted(ways)}")
    return OUTCOMES[ways.pop()]


def all_reasons() -> Iterator[tuple[Info, set[tuple[str, str]]]]:
    """Each atomic rule with its reasons."""
    for path, info in own_infos().items():
        yield info, reasons(path)
