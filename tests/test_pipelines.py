"""The pipelines of examples/pipelines: their shell lines are run, with a server in the place of what they reach."""
from __future__ import annotations

import http.server
import json
import os
import pathlib
import re
import subprocess
import threading
from typing import Any, Iterator

import pytest
import yaml  # type: ignore[import]

from .samples import ROOT

pytestmark = pytest.mark.desk
FILES = ROOT / "examples" / "pipelines"
PAGE = """<!DOCTYPE html>
<html lang="en"><head><title>Shop</title></head>
<body><main><h1>Shop</h1><a href="/">Home</a><img src="a.png">
{}
</main></body></html>
"""
SETTINGS = '[[page]]\nfile = "index.html"\n'
ACCEPTED = '[[accepted]]\nrule = "c487ae"\nplace = "* #cart"\nreason = "known"\nwho = "ann"\nuntil = 2999-12-31\n'
NEW_LINK = '<a id="cart" href="/cart"></a>'


class Server:
    """Answers with a package, and keeps what is posted to it."""

    def __init__(self) -> None:
        self.posted: list[tuple[str, str, Any]] = []
        server = self

        class Handler(http.server.BaseHTTPRequestHandler):
            """One request."""

            def answer(self, status: int, body: bytes) -> None:
                """Sends a whole answer."""
                self.send_response(status)
                self.send_header("content-length", str(len(body)))
                self.end_headers()
                self.wfile.write(body)

            def do_GET(self) -> None:
                """The package."""
                self.answer(200, b"package")

            def do_POST(self) -> None:
                """A comment."""
                body = self.rfile.read(int(self.headers["content-length"]))
                server.posted.append((self.path, self.headers["authorization"], json.loads(body)))
                self.answer(201, b"{}")

            def log_message(self, *rest: object) -> None:
                """Says nothing."""

        self.http = http.server.ThreadingHTTPServer(("127.0.0.1", 0), Handler)
        self.address = f"http://127.0.0.1:{self.http.server_port}"
        threading.Thread(target=self.http.serve_forever, daemon=True).start()


@pytest.fixture
def server() -> Iterator[Server]:
    """A server for the time of a test."""
    made = Server()
    yield made
    made.http.shutdown()
    made.http.server_close()


class Repository:
    """A folder as a runner has it: the page, the files to copy, and the commands that the package installs."""

    def __init__(self, folder: pathlib.Path, server: Server) -> None:
        self.folder = folder
        self.programs = folder.parent / "programs"
        self.programs.mkdir()
        (self.programs / "silvervole").symlink_to(ROOT / "bin" / "silvervole")
        (self.programs / "apt-get").write_text(f'#!/bin/sh\necho "$@" >> {self.programs}/asked\n', encoding="utf-8")
        (self.programs / "apt-get").chmod(0o755)
        folder.mkdir()
        (folder / "accessibility.sh").write_bytes((FILES / "accessibility.sh").read_bytes())
        (folder / "silvervole.toml").write_text(SETTINGS, encoding="utf-8")
        self.variables = {**os.environ, "PATH": f"{self.programs}:{os.environ['PATH']}", "SILVERVOLE_DEB": f"{server.address}/silvervole.deb",
                          "GITHUB_STEP_SUMMARY": str(folder / "summary.md"), "GITHUB_API_URL": server.address,
                          "GITHUB_REPOSITORY": "acme/shop", "GITHUB_TOKEN": "secret", "NUMBER": "7"}

    def write(self, more: str = "") -> None:
        """The page, with something more on it."""
        (self.folder / "index.html").write_text(PAGE.format(more), encoding="utf-8")

    def run(self, lines: str) -> tuple[int, str]:
        """The status and the output of some lines, run as both services run them."""
        done = subprocess.run(["bash", "-e", "-o", "pipefail", "-c", lines], cwd=self.folder, env=self.variables,
                              stdout=subprocess.PIPE, stderr=subprocess.STDOUT, text=True, check=False)
        return done.returncode, done.stdout


@pytest.fixture
def repository(tmp_path: pathlib.Path, server: Server) -> Repository:
    """A repository with a page that has one failure."""
    made = Repository(tmp_path / "repository", server)
    made.write()
    return made


def github_steps(event: str) -> list[tuple[str, str]]:
    """The names and the lines of the steps that run on an event, main or pull_request."""
    job = yaml.safe_load((FILES / "github.yml").read_text(encoding="utf-8"))["jobs"]["accessibility"]
    assert job["defaults"]["run"]["shell"] == "bash"
    other = "refs/heads/main" if event == "pull_request" else "== 'pull_request'"
    return [(step["name"], step["run"]) for step in job["steps"] if "run" in step and other not in step.get("if", "")]


def run_github(repository: Repository, event: str) -> dict[str, tuple[int, str]]:
    """What each step ended with; as on GitHub those after a failure run where their condition says so."""
    return {name: repository.run(lines) for name, lines in github_steps(event)}


def test_github(repository: Repository, server: Server) -> None:
    """On main the first audit becomes the baseline; a pull request fails on what is new alone, and gets a comment."""
    first = run_github(repository, "main")
    assert {name: status for name, (status, _) in first.items()} == dict.fromkeys(first, 0), first
    assert "there is no baseline yet" in first["Check, and fail on what is new"][1] and (repository.folder / "baseline").is_dir()
    assert (repository.programs / "asked").read_text(encoding="utf-8").splitlines()[-1].endswith("./silvervole.deb")
    repository.write(NEW_LINK)
    second = run_github(repository, "pull_request")
    assert {name: status for name, (status, _) in second.items() if status} == {"Check, and fail on what is new": 1}, second
    assert second["Check, and fail on what is new"][1].splitlines()[-1].startswith("new failed 1, new to judge 0, mended 0, stay ")
    annotations = second["Annotate, and sum up"][1].splitlines()
    assert [line.split(" ")[0] for line in annotations[:2]] == ["::error", "::warning"] and "line=4," in annotations[0], annotations
    path, authorization, comment = server.posted[-1]
    assert (path, authorization) == ("/repos/acme/shop/issues/7/comments", "Bearer secret")
    assert comment["body"].startswith("## Accessibility: 1 new failed, ") and "### New failures (1)" in comment["body"]
    marks = [{one["node"]: one["fingerprint"] for one in json.loads((repository.folder / name / "findings").read_text(encoding="utf-8"))["findings"]
              if one["outcome"] == "failed"} for name in ("baseline", "audit")]
    assert len(marks[0]) == 1 and set(marks[0].values()) < set(marks[1].values()) and len(marks[1]) == 2
    assert comment["body"] in (repository.folder / "summary.md").read_text(encoding="utf-8")


def gitlab_lines(name: str) -> str:
    """The lines of a job, one after another in one shell, as GitLab runs them."""
    jobs = yaml.safe_load((FILES / "gitlab.yml").read_text(encoding="utf-8"))
    return "\n".join([*jobs[jobs[name]["extends"]]["before_script"], *jobs[name]["script"]])


def test_gitlab(repository: Repository) -> None:
    """The branch's job makes the baseline; a merge request's fails on what is new, and not on what is accepted."""
    status, said = repository.run(gitlab_lines("accessibility-baseline"))
    assert status == 0 and (repository.folder / "baseline").is_dir() and not (repository.folder / "audit").exists(), said
    assert repository.run(gitlab_lines("accessibility"))[0] == 0
    repository.write(NEW_LINK)
    status, said = repository.run(gitlab_lines("accessibility"))
    assert status == 1 and said.splitlines()[-1].startswith("new failed 1, "), said
    (repository.folder / "accepted.toml").write_text(ACCEPTED, encoding="utf-8")
    status, said = repository.run(gitlab_lines("accessibility"))
    assert status == 0 and said.splitlines()[-1].endswith(", accepted 1"), said
    jobs = yaml.safe_load((FILES / "gitlab.yml").read_text(encoding="utf-8"))
    reports = jobs[".accessibility"]["artifacts"]["reports"]
    assert all((repository.folder / path).is_file() for path in reports.values()), reports


def test_a_page_that_is_gone(repository: Repository) -> None:
    """A page that can't be checked ends the script, and stands in the findings; the baseline stays."""
    assert repository.run(gitlab_lines("accessibility-baseline"))[0] == 0
    os.unlink(repository.folder / "index.html")
    status, said = repository.run(gitlab_lines("accessibility-baseline"))
    assert status == 14 and "index.html" in said, said
    assert re.search(r'errors="1"', (repository.folder / "findings" / "junit.xml").read_text(encoding="utf-8"))
    assert list((repository.folder / "baseline").glob("*.txt"))
