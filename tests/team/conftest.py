"""What the tests of what stands around the desk share: the packages without which one is left out, a browser, a desk, and proxies before it."""
from __future__ import annotations

from typing import Any, Iterator

import pytest

from serving import Serving
from silvervole.collect.browser import start_browser
from silvervole.collect.ends import quiet_libraries

from .packages import missing
from .proxies import Proxy


@pytest.fixture(autouse=True)
def packages(request: pytest.FixtureRequest) -> None:
    """Leaves a test out that needs a package which isn't there."""
    lacking = missing(tuple(package for mark in request.node.iter_markers("packages") for package in mark.args))
    if lacking:
        pytest.skip(f"not installed (on Debian: apt-get install {' '.join(lacking)})")


@pytest.fixture
def browser() -> Iterator[Any]:
    """A Chromium of the test's own, in which nobody is signed in."""
    quiet_libraries()
    started = start_browser()
    yield started
    started.quit()


@pytest.fixture
def desk() -> Iterator[Serving]:
    """The built desk while it serves, over memory."""
    with Serving(connections=1_000_000) as serving:
        yield serving


@pytest.fixture
def proxy(desk: Serving) -> Iterator[Proxy]:
    """nginx before the desk, with the example that has TLS and passwords."""
    with Proxy("basic.conf", [desk.port]) as started:
        yield started


@pytest.fixture
def sign_on(desk: Serving) -> Iterator[Proxy]:
    """nginx before the desk, with the example that stands behind a single-sign-on proxy."""
    with Proxy("sign-on.conf", [desk.port]) as started:
        yield started
