"""Takes the versions of a list's pages ahead, some beside each other, each in a browser of its own."""
from __future__ import annotations

import concurrent.futures
import dataclasses
from collections import deque
from typing import Iterator, Protocol, Sequence, TypeVar

from silvervole.collect.browser import Browsers
from silvervole.collect.options import Options

from .version import Version, version_of


class Source(Protocol):
    """What a page's version is taken from."""

    @property
    def source(self) -> str:
        """A file or an address."""

    @property
    def url(self) -> str | None:
        """The address to write as the page's."""


Entry = TypeVar("Entry", bound=Source)
Future = concurrent.futures.Future[Version]


class Ahead:
    """So many workers; where the work is left by an exception, their browsers are closed."""

    def __init__(self, jobs: int, options: Options) -> None:
        self.jobs, self.options = jobs, options
        self.pool = concurrent.futures.ThreadPoolExecutor(jobs)
        self.browsers = Browsers()

    def __enter__(self) -> Ahead:
        return self

    def __exit__(self, kind: object, *rest: object) -> None:
        if kind is not None:
            self.browsers.close()
        self.pool.shutdown(cancel_futures=True)

    def versions(self, entries: Sequence[Entry]) -> Iterator[tuple[Entry, Future]]:
        """Each page of a list in order, and its version; as many are taken at once as there are workers."""
        waiting: deque[tuple[Entry, Future]] = deque()
        for entry in entries:
            options = dataclasses.replace(self.options, url=entry.url)
            waiting.append((entry, self.pool.submit(version_of, entry.source, options, None, self.browsers.holding)))
            if len(waiting) == self.jobs:
                yield waiting.popleft()
        yield from waiting
