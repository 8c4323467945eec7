"""tools/install-needed installs what the scripts need: each module that they import, and each package that they or the documents ask for."""
from __future__ import annotations

import ast
import pathlib
import re
import subprocess
import sys
from typing import Iterator

ROOT = pathlib.Path(__file__).resolve().parent.parent
FOLDERS = ("bench", "collector", "deploy", "silvervole", "tests", "tools")
# The Debian package of each module that isn't Python's own, and what comes along with another one.
PACKAGES = {"argcomplete": "python3-argcomplete", "attr": "python3-sarif-python-om", "brotli": "python3-brotli", "cssselect": "python3-cssselect",
            "jinja2": "python3-jinja2", "jsonschema": "python3-jsonschema", "junitparser": "python3-junitparser", "lxml": "python3-lxml",
            "markupsafe": "python3-jinja2", "pytest": "python3-pytest", "rdflib": "python3-rdflib", "rich": "python3-rich",
            "sarif_om": "python3-sarif-python-om", "selenium": "python3-selenium", "setuptools": "python3-setuptools",
            "trio": "python3-selenium", "trio_websocket": "python3-selenium", "urllib3": "python3-selenium", "yaml": "python3-yaml"}
ASKED = re.compile(r"apt-get install (?:-y )?((?:[a-z0-9][a-z0-9+.-]+ ?)+)")


def listed() -> set[str]:
    """The packages that the script installs."""
    return set(subprocess.run([ROOT / "tools" / "install-needed", "--list"], capture_output=True, check=True, text=True).stdout.split())


def scripts() -> Iterator[pathlib.Path]:
    """The files of Python, by their name or first line."""
    for path in (path for folder in FOLDERS for path in sorted((ROOT / folder).rglob("*")) if path.is_file()):
        with open(path, "rb") as file:
            if path.suffix == ".py" or re.match(rb"#!.*python3", file.readline()):
                yield path


def modules(path: pathlib.Path) -> set[str]:
    """The modules that a file imports."""
    found = set()
    for node in ast.walk(ast.parse(path.read_text(encoding="utf-8"))):
        if isinstance(node, ast.Import):
            found |= {name.name.partition(".")[0] for name in node.names}
        elif isinstance(node, ast.ImportFrom) and node.level == 0 and node.module:
            found.add(node.module.partition(".")[0])
    return found


def test_modules() -> None:
    """Each module that a script imports is Python's own, one of the repository, or of a package that is installed."""
    paths = list(scripts())
    own = {path.stem for path in paths} | {path.parent.name for path in paths} | set(FOLDERS)
    others = {name: path.relative_to(ROOT) for path in paths for name in modules(path) if name not in own and name not in sys.stdlib_module_names}
    assert {name: path for name, path in others.items() if name not in PACKAGES} == {}
    assert {PACKAGES[name] for name in others} - listed() == set()


def test_asked_for() -> None:
    """Each package that a script or a document asks for is among them."""
    files = [*scripts(), *(ROOT / "tools").glob("*"), *(ROOT / "docs").rglob("*.md"), ROOT / "README.md", ROOT / "CONTRIBUTING.md"]
    asked = {name for path in files if path.is_file() for found in ASKED.findall(path.read_text(encoding="utf-8")) for name in found.split()}
    assert asked - listed() - {"ca-certificates"} == set()
