"""The command collector/collect."""
from __future__ import annotations

from typing import Sequence

from .ends import End, run_command, say, write_file, write_out
from .many import collect_list
from .options import Command, parser, read_words
from .pages import Collected, collect_page
from .places import ended


def collect_one(command: Command) -> End:
    """Collects one page, and writes its snapshot on standard output, or where --out says with its frames and states beside it."""
    def keep(collected: Collected) -> None:
        for note in collected.notes:
            say("collect", note)
        if not collected.text:
            return
        collected.write_shot(command.options.shot or "")
        data = collected.text.encode("utf-8")
        if command.out:
            write_file(ended(command.out, collected.ending), data)
        else:
            write_out(data)

    collect_page(command.page or "", command.options, keep)
    return End.WRITTEN


def main(words: Sequence[str], program: str = "collect", example: str = "") -> int:
    """The status of a run."""
    def work() -> int:
        command = read_words(words, parser(program, example))
        return collect_one(command) if command.list is None else collect_list(command)

    return run_command(program, work)
