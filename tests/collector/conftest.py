"""What the tests of the collector share: the parts without which none runs, and a server of pages of every kind."""
from __future__ import annotations

from typing import Iterator

import pytest

from silvervole.collect.browser import find_tools
from silvervole.collect.ends import Stop

from .server import Answer, ServePages, serve


@pytest.fixture(scope="session", autouse=True)
def needed() -> None:
    """Leaves the tests out where a part that the commands need isn't installed."""
    try:
        find_tools()
    except Stop as stop:
        pytest.skip(stop.line)
    pytest.importorskip("jinja2", reason="Python's jinja2 isn't there (on Debian: apt-get install python3-jinja2)")


@pytest.fixture(scope="session")
def base() -> Iterator[str]:
    """The address of a server on this machine, with the example site and pages of every kind."""
    server, address = serve()
    yield address
    server.shutdown()


@pytest.fixture
def serve_pages() -> Iterator[ServePages]:
    """Serves more pages, at an address of their own until the test ends."""
    running = []

    def start(more: dict[str, Answer]) -> str:
        server, address = serve(more)
        running.append(server)
        return address

    yield start
    for server in running:
        server.shutdown()
