"""The figures of docs/use/team.md: requests a second through nginx, snapshots a second by GNU parallel, and a large page in the browser."""
from __future__ import annotations

import os
import re
import shutil
import subprocess
import tempfile
import time

from serving import HOST, PROGRAM, Serving
from silvervole.collect.browser import start_browser

from ..support import SITE
from .asking import ask, basic
from .packages import BROWSER, missing
from .proxies import Proxy
from .samples import PAGE
from .test_many import command
from .test_page_questions import put_large, watching

REQUESTS, CLIENTS = 4_000, 16


def requests_a_second(proxy: Proxy, path: str) -> float:
    """How many requests a second Apache's `ab` has answered, from sixteen clients that keep their connections."""
    field = f"authorization: {basic('ann')['authorization']}"
    done = subprocess.run(["ab", "-q", "-k", "-n", str(REQUESTS), "-c", str(CLIENTS), "-H", field, f"https://{HOST}:{proxy.port}{path}"],
                          capture_output=True, text=True, check=True)
    if "Non-2xx" in done.stdout or not re.search(r"^Failed requests: +0$", done.stdout, re.MULTILINE):
        raise RuntimeError(done.stdout)
    return float(re.findall(r"^Requests per second: +([0-9.]+)", done.stdout, re.MULTILINE)[0])


def snapshots_a_second(folder: str, jobs: int, snapshots: int) -> float:
    """How many snapshots a second the command of docs/use/team.md audits with so many jobs."""
    began = time.monotonic()
    subprocess.run(["bash", "-c", command(jobs)], cwd=folder, check=True, stdin=subprocess.DEVNULL,
                   env={**os.environ, "PATH": f"{folder}:{os.environ['PATH']}", "HOME": folder})
    return snapshots / (time.monotonic() - began)


def print_speeds(snapshots: int) -> None:
    """Prints each figure, of audits that of so many snapshots, and last the machine's load."""
    with Serving(connections=1_000_000) as desk, Proxy("basic.conf", [desk.port]) as proxy:
        ask(proxy, "PUT /sites/acme", b"", basic("ann"))
        ask(proxy, "PUT /sites/acme/pages/small", PAGE, {**basic("ann"), "x-rev": "0"})
        ask(proxy, "PUT /sites/acme/pages/home", (SITE / "home.json").read_bytes(), {**basic("ann"), "x-rev": "0"})
        for page in ("small", "home"):
            rate = requests_a_second(proxy, f"/sites/acme/pages/{page}/outcomes")
            print(f"outcomes of the page {page}, {CLIENTS} clients: {rate:.0f} requests a second", flush=True)
    with tempfile.TemporaryDirectory() as folder:
        os.mkdir(f"{folder}/snapshots")
        os.symlink(PROGRAM, f"{folder}/act_desk")
        shutil.copy(SITE / "home.json", f"{folder}/snapshots/0.json")
        for number in range(1, snapshots):
            os.link(f"{folder}/snapshots/0.json", f"{folder}/snapshots/{number}.json")
        for jobs in (1, 4):
            rate = snapshots_a_second(folder, jobs, snapshots)
            print(f"{snapshots} times the page home by parallel, {jobs} at once: {rate:.0f} snapshots a second", flush=True)
    if not missing(BROWSER):
        browser = start_browser()
        try:
            with Serving(connections=1_000_000) as desk, Proxy("sign-on.conf", [desk.port]) as proxy:
                print(put_large(watching(browser, proxy)), flush=True)
        finally:
            browser.quit()
    print(f"on a machine with a load of {os.getloadavg()[0]:.1f} of {os.cpu_count()} processors")
