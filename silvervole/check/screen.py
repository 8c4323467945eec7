"""Writes lines on standard output, with colours on a terminal, and progress on standard error."""
from __future__ import annotations

import itertools
import os
import sys
from typing import Any, Iterable

from silvervole.collect.ends import one_line, say, write_out

from .telling import Kind, Line, plain

# How rich draws each kind of line.
STYLES = {Kind.PAGE: "bold", Kind.FAILED: "bold red", Kind.TO_JUDGE: "bold yellow", Kind.PASSED: "bold green", Kind.ACCEPTED: "bold magenta",
          Kind.RULE: "bold", Kind.PLACE: "cyan", Kind.PLAIN: ""}
# So many lines are written at a time: to draw them takes its time, and the first are to be read meanwhile.
LINES_AT_ONCE = 40


def is_terminal(stream: Any) -> bool:
    """Whether a stream is a terminal that shows more than plain text."""
    return stream is not None and stream.isatty() and os.environ.get("TERM") != "dumb"


class Screen:
    """What the command writes; without rich, or where nothing may be coloured, it is plain."""

    def __init__(self, program: str, pages: int) -> None:
        self.program = program
        self.pages = pages
        self.begun = self.ended = 0
        self.console = self.live = None
        coloured = is_terminal(sys.stdout) and not os.environ.get("NO_COLOR")
        if not (coloured or is_terminal(sys.stderr)):
            return
        try:
            import rich.console
        except ImportError:
            return
        if coloured:
            self.console = rich.console.Console(highlight=False, markup=False, emoji=False)
        if is_terminal(sys.stderr):
            self.live = self.spinner()

    def spinner(self) -> Any:
        """What shows on standard error that the command is at work."""
        import rich.console
        import rich.live
        from rich.spinner import Spinner
        self.spinning = Spinner("line", text="")
        console = rich.console.Console(stderr=True, highlight=False, markup=False, emoji=False, no_color=bool(os.environ.get("NO_COLOR")))
        return rich.live.Live(self.spinning, console=console, transient=True, redirect_stdout=False, refresh_per_second=8)

    def begin(self, page: str) -> None:
        """Shows which page is begun."""
        self.begun += 1
        if self.live is not None:
            from rich.text import Text
            self.spinning.update(text=Text(f"{self.ended} of {self.pages} checked; {one_line(page)}"))
            self.live.start()

    def end(self) -> None:
        """Shows that a page is done; after the last nothing is left of the progress."""
        self.ended += 1
        if self.live is not None and self.ended == self.pages:
            self.live.stop()

    def pause(self) -> bool:
        """Takes the progress off the screen; whether it was there."""
        there = self.live is not None and self.live.is_started
        if there:
            self.live.stop()  # type: ignore[union-attr]
        return there

    def write(self, lines: Iterable[Line]) -> None:
        """Writes lines on standard output, each as soon as may be, the progress aside."""
        there = self.pause()
        left = iter(lines)
        while part := list(itertools.islice(left, LINES_AT_ONCE)):
            write_out((self.drawn(part) if self.console is not None else "".join(f"{plain(line)}\n" for line in part)).encode("utf-8", "replace"))
        if there and self.ended < self.pages:
            self.live.start()  # type: ignore[union-attr]

    def drawn(self, lines: Iterable[Line]) -> str:
        """The lines with colours, each moved in as far as it is also where it is wrapped."""
        from rich.padding import Padding
        from rich.text import Text
        assert self.console is not None
        with self.console.capture() as got:
            for line in lines:
                self.console.print(Padding(Text(one_line(line.text), style=STYLES[line.kind]), (0, 0, 0, line.indent)))
        return got.get()

    def say(self, line: str) -> None:
        """Writes one line on standard error, the progress aside."""
        there = self.pause()
        say(self.program, line)
        if there and self.ended < self.pages:
            self.live.start()  # type: ignore[union-attr]
