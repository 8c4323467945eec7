"""The script of docs/use/pipeline.md that asks the desk over HTTP, through the proxy."""
from __future__ import annotations

import json
import os
import pathlib
import re
import subprocess
from collections import defaultdict

from serving import HOST, ROOT

from ..support import SITE, expect, same
from .asking import ask, basic
from .packages import PROXY, needs
from .proxies import PASSWORD, Proxy

pytestmark = needs(*PROXY, "curl")

DOCUMENT = pathlib.Path(ROOT, "docs", "use", "pipeline.md")
ADDRESS = "https://desk.example.org/"
# The status of curl where the desk refuses a request.
REFUSED = 22


def grouped(rows: list[dict[str, object]]) -> defaultdict[object, list[dict[str, object]]]:
    """The rows by their parents."""
    found: defaultdict[object, list[dict[str, object]]] = defaultdict(list)
    for row in rows:
        found[row["p"]].append(row)
    return found


def run_script(proxy: Proxy, folder: str, snapshot: bytes) -> tuple[int, str]:
    """The status of the script on a new snapshot of the page, and the last line that it prints."""
    script = next(text for text in re.findall(r"^```sh\n(.*?)^```$", DOCUMENT.read_text(encoding="utf-8"), re.MULTILINE | re.DOTALL)
                  if ADDRESS in text).replace(ADDRESS, f"https://{HOST}:{proxy.port}/")
    pathlib.Path(folder, "page.json").write_bytes(snapshot)
    done = subprocess.run(["sh", "-c", script, "sh", "page.json"], cwd=folder, capture_output=True, check=False,
                          env={**os.environ, "PATH": f"{folder}:{os.environ['PATH']}", "CURL_CA_BUNDLE": proxy.certificate, "SSL_CERT_FILE": proxy.certificate,
                               "CI_USER": "ann", "CI_KEY": PASSWORD})
    return done.returncode, (done.stdout.decode().splitlines() or [done.stderr.decode()])[-1]


def test_pipeline_over_http(folder: str, proxy: Proxy) -> None:
    """The same page, a page that got worse, and a desk that has no such page."""
    home = (SITE / "home.json").read_bytes()
    worse = json.loads(home)
    kids = grouped(worse["nodes"])
    link = next(row["n"] for row in worse["nodes"] if row.get("tag") == "a" and [set(kid) >= {"text"} for kid in kids[row["n"]]] == [True])
    worse["nodes"] = [row for row in worse["nodes"] if row["p"] != link]
    for name in ("compare", "send"):
        os.symlink(os.path.join(ROOT, "collector", name), f"{folder}/act-desk-{name}")
    ask(proxy, "PUT /sites/acme", b"", basic("ann"))
    same("the script where the desk has no such page", run_script(proxy, folder, home)[0], REFUSED)
    ask(proxy, "PUT /sites/acme/pages/home", home, {**basic("ann"), "x-rev": "0"})
    status, last = run_script(proxy, folder, home)
    expect("the script where nothing is new", status == 0 and last.startswith("new failed 0, "), (status, last))
    status, last = run_script(proxy, folder, json.dumps(worse).encode())
    expect("the script where a link lost its name", status == 1 and last.startswith("new failed 1, "), (status, last))
