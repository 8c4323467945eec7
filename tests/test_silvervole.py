"""The command's own words: help, version, completion, statuses, and where the program is found."""
from __future__ import annotations

import os
import pathlib
import re
import subprocess

import pytest

from silvervole import __version__
from silvervole.collect.ends import End, run_command
from silvervole.main import WORDS

from .samples import ROOT
from .standin import COMMAND, desk, plain_environment, shop_file, silvervole

PAGE = ROOT / "docs" / "use" / "silvervole.md"
COMPLETION = ROOT / "deploy" / "completion" / "silvervole"
# Runs the completion of the shell for what stands on its line.
COMPLETE = 'source "$1"; COMP_LINE="$3"; COMP_POINT=${#COMP_LINE}; COMP_TYPE=9; _silvervole "$2"; printf "%s\\n" "${COMPREPLY[@]}"'


@pytest.mark.parametrize("word", sorted(WORDS))
def test_help(word: str) -> None:
    """Each word says what it takes, and ends in an example of itself."""
    status, out, error = silvervole(word, "--help")
    assert (status, error) == (0, "") and out.startswith(f"usage: silvervole {word} ")
    assert out.splitlines()[-2] == "example:" and out.splitlines()[-1].startswith(f"  silvervole {word} ")


def test_own_words() -> None:
    """Help, with a line for each word; and what is no word."""
    status, out, _ = silvervole("--help")
    assert status == 0 and [line.split()[0] for line in out.splitlines() if line.startswith("  ")][:len(WORDS)] == list(WORDS)
    assert silvervole()[:2] == (End.USAGE, out)
    status, out, error = silvervole("chek")
    assert (status, out) == (18, "") and error.startswith("silvervole: chek is none of check, collect, ") and error.count("\n") == 1


def test_version_and_program(tmp_path: pathlib.Path) -> None:
    """The program is what SILVERVOLE_PROGRAM names; where there is none, one line says what to do."""
    env = desk(tmp_path)
    assert silvervole("--version", env=env)[1] == f"silvervole {__version__}, with the desk {env['SILVERVOLE_PROGRAM']}\n"
    env["SILVERVOLE_PROGRAM"] = str(tmp_path / "none")
    line = f"SILVERVOLE_PROGRAM names {tmp_path}/none, which is no program that can be started\n"
    assert silvervole("--version", env=env)[1] == f"silvervole {__version__}, without a desk: {line}"
    for word in ("audit", "check"):
        status, _, error = silvervole(word, shop_file(tmp_path), env=env)
        assert status == 21 and error.endswith(line) and error.count("\n") == 1
    assert silvervole("serve", "-", env=env)[::2] == (21, f"silvervole serve: {line}")


def test_a_program_of_audits_alone(tmp_path: pathlib.Path) -> None:
    """act_audit takes no words."""
    program = tmp_path / "act_audit"
    program.write_text("#!/bin/sh\ncat > /dev/null\nexit $#\n", encoding="utf-8")
    program.chmod(0o755)
    assert silvervole("audit", shop_file(tmp_path), env={**plain_environment(), "SILVERVOLE_PROGRAM": str(program)}) == (0, "", "")


def test_statuses() -> None:
    """The table of the documents has each status of the commands, and no other."""
    table = PAGE.read_text(encoding="utf-8").partition("## Statuses")[2].partition("## Settings")[0]
    told: set[int] = set()
    for first, last in re.findall(r"^\| ([0-9]+)(?: to ([0-9]+))? \|", table, re.MULTILINE):
        told |= set(range(int(first), int(last or first) + 1))
    assert told == {end.value for end in End}


def test_a_fault_of_its_own(capsys: pytest.CaptureFixture[str]) -> None:
    """It isn't taken for something that failed on a page."""
    assert run_command("check", lambda: [][0]) == End.OWN_FAULT
    error = capsys.readouterr().err
    assert error.startswith("check: a fault of the command itself") and error.endswith("IndexError: list index out of range\n")


def test_words_of_the_documents() -> None:
    """The table of words, and the manual page, have each of them."""
    assert re.findall(r"^\| `([a-z]+)[ `]", PAGE.read_text(encoding="utf-8").partition("## check")[0], re.MULTILINE) == list(WORDS)
    manual = (ROOT / "deploy" / "man" / "silvervole.1").read_text(encoding="utf-8")
    assert set(re.findall(r"^\.Cm ([a-z]+)$", manual, re.MULTILINE)) >= set(WORDS)


@pytest.mark.parametrize("line, wanted", [
    ("silvervole ", {"--version", *WORDS}), ("silvervole ch", {"check"}), ("silvervole check --fr", {"--frames"}),
    ("silvervole serve --", {"--port", "--workers", "--connections"}), ("silvervole compare --jun", {"--junit"})])
def test_completion(line: str, wanted: set[str]) -> None:
    """Bash completes words and options."""
    done = subprocess.run(["bash", "-c", COMPLETE, "bash", COMPLETION, COMMAND, line], capture_output=True, text=True, check=False, env=plain_environment())
    assert done.returncode == 0 and wanted <= {word.strip() for word in done.stdout.splitlines()}, done


def test_installed(tmp_path: pathlib.Path) -> None:
    """`pip install .` puts the package into a virtual environment that sees Debian's packages, with no network."""
    copy = tmp_path / "clone"
    files = subprocess.run(["git", "-c", f"safe.directory={ROOT}", "ls-files", "-z", "silvervole", "deploy", "pyproject.toml", "README.md"], cwd=ROOT, capture_output=True,
                           text=True, check=True).stdout.split("\0")
    for name in filter(None, files):
        (copy / name).parent.mkdir(parents=True, exist_ok=True)
        (copy / name).write_bytes((ROOT / name).read_bytes())
    env = {**plain_environment(), "PIP_NO_INDEX": "1", "PIP_DISABLE_PIP_VERSION_CHECK": "1"}
    subprocess.run(["/usr/bin/python3", "-m", "venv", "--system-site-packages", tmp_path / "venv"], check=True, env=env)
    subprocess.run([tmp_path / "venv" / "bin" / "pip", "install", "--quiet", copy], check=True, env=env)
    command = tmp_path / "venv" / "bin" / "silvervole"
    desk_env = {**env, **desk(tmp_path)}
    done = subprocess.run([command, "check", shop_file(tmp_path), "--html", tmp_path / "found.html"], capture_output=True, text=True, check=False,
                          env=desk_env, cwd=tmp_path)
    assert done.returncode == 1 and "3 failed, 1 to judge, 2 passed" in done.stdout, done
    assert (tmp_path / "found.html").is_file()
    place = subprocess.run([tmp_path / "venv" / "bin" / "python", "-c", "import silvervole; print(silvervole.__file__)"], capture_output=True, text=True,
                           check=True, cwd=tmp_path).stdout
    assert place.startswith(os.path.realpath(tmp_path / "venv")) or place.startswith(str(tmp_path / "venv"))


def test_asks_for_what_builds_it() -> None:
    """With another Python than Debian's, in an environment without them, pip is told to fetch what builds the package."""
    for prefix, wanted in (("/usr", "[]"), ("/opt/python", "['setuptools>=66', 'wheel']")):
        asked = f"import sys; sys.base_prefix = {prefix!r}; sys.path.append({str(ROOT / 'deploy')!r}); import backend; print(backend.required())"
        done = subprocess.run(["/usr/bin/python3", "-I", "-S", "-B", "-c", asked], capture_output=True, text=True, check=True)
        assert done.stdout.strip() == wanted
