"""Says on a terminal that the command still waits."""
from __future__ import annotations

import sys
import threading
from types import TracebackType

from .ends import say

SECONDS = 2.0


class Patience:
    """For the time of a with statement: after two seconds one line says what is waited for."""

    def __init__(self, what: str) -> None:
        self.timer = threading.Timer(SECONDS, say, ("collect", f"still waiting: {what}"))
        self.timer.daemon = True

    def __enter__(self) -> None:
        if sys.stderr is not None and sys.stderr.isatty():
            self.timer.start()

    def __exit__(self, kind: type[BaseException] | None, error: BaseException | None,
                 trace: TracebackType | None) -> None:
        self.timer.cancel()
