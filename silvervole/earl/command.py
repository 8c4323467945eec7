"""The word earl."""
from __future__ import annotations

import dataclasses
from dataclasses import dataclass
from typing import Iterable, Sequence

from silvervole.collect.ends import End, Stop, run_command, write_file, write_out
from silvervole.collect.options import whole
from silvervole.desk.asking import Desk
from silvervole.desk.words import add_desk_words, desk_of
from silvervole.send.kept import Target, target_of
from silvervole.view.files import read
from silvervole.view.outcomes import GREATEST_REVISION
from silvervole.view.rules import read_rules
from silvervole.words import Parser

from .assertions import read_assertions
from .confirming import confirmed, is_open
from .kept import Kept, read_kept, read_report
from .mapping import Mapper, Skipped
from .reading import read_statements
from .sending import Judged, send, written
from .subjects import Subjects
from .taking import Fate, Taken, settled, take
from .telling import Teller, sums

USAGE = "{0} --desk ADDRESS [--caller NAME] SITE/PAGE FILE [OPTIONS]"


@dataclass(frozen=True)
class Command:
    """What the words ask for."""

    target: Target
    file: str
    revision: int | None
    snapshot: str | None
    subjects: tuple[str, ...]
    contexts: dict[str, str]
    trial: bool
    write: str | None


def parser(program: str = "earl", example: str = "") -> Parser:
    """The words of the command."""
    made = Parser(prog=program, usage=USAGE.format(program), example=example,
                  description="Gives the judgements that people made in another tool, or at another desk, to the desk: those in an EARL "
                              "file. docs/use/judgements.md says more.")
    made.add_argument("target", metavar="SITE/PAGE", help="the page at the desk")
    made.add_argument("file", metavar="FILE", help="EARL 1.0 in JSON-LD, Turtle or RDF/XML; - is standard input")
    add_desk_words(made)
    made.add_argument("--as-of", metavar="REV", type=whole(1, GREATEST_REVISION), help="the judgements were made on this revision of the page, which has to be "
                      "the one that is kept: where the file has no digest of the evidence, nobody is asked then")
    made.add_argument("--snapshot", metavar="SNAPSHOT", help="finds pointers in this snapshot of the kept page, and doesn't ask the desk for it")
    made.add_argument("--subject", metavar="ADDRESS", action="append", default=[], help="takes this address for the page's too; as often as needed")
    made.add_argument("--context", metavar="ADDRESS=FILE", action="append", default=[],
                      help="a copy of a context that JSON-LD names; as often as needed, since none is fetched")
    made.add_argument("--dry-run", action="store_true", help="says what would be added, asks nothing, and sends nothing")
    made.add_argument("--write", metavar="OUT", help="writes what would be sent as EARL with the digests of the evidence, and sends nothing")
    return made


def read_words(words: Sequence[str], asked: Parser) -> tuple[Command, Desk]:
    """What the words ask for, and the desk that they name."""
    given = asked.parse_args(words)
    if given.dry_run and given.write is not None:
        asked.error("--write and --dry-run don't go together")
    contexts = {}
    for word in given.context:
        # The address may hold the sign too.
        address, sign, file = word.rpartition("=")
        if not sign or not address or not file:
            asked.error(f"--context {word} isn't ADDRESS=FILE")
        contexts[address] = file
    command = Command(target_of(given.target), given.file, given.as_of, given.snapshot, tuple(given.subject), contexts, given.dry_run, given.write)
    return command, desk_of(given)


def hand_of(desk: Desk) -> str | None:
    """The name under which the desk takes judgements, where it is known."""
    access = desk.access
    return access.caller or (access.sign_in[0] if access.sign_in else None)


def check_revision(command: Command, kept: Kept) -> None:
    """Refuses judgements on another revision than the one that is kept."""
    if command.revision is not None and command.revision != kept.report.revision:
        raise Stop(End.REVISION, f"the desk keeps revision {kept.report.revision} of {command.target}, and not {command.revision}: nothing is sent")


def work(words: Sequence[str], asked: Parser) -> int:
    """The status of a run, all of which is told."""
    command, desk = read_words(words, asked)
    assertions = read_assertions(read_statements(read(command.file), command.file, command.contexts), command.file)
    table, kept, hand = read_rules(), read_kept(desk, command.target, command.snapshot), hand_of(desk)
    check_revision(command, kept)
    teller = Teller(kept.page, table)
    found = take(Mapper(kept.page, kept.report, Subjects(kept.page.address, command.subjects), table).all(assertions), kept.report, hand)
    if command.trial:
        tell([*teller.lines(tried(found, command.revision is not None)), f"a trial, not sent: {sums(found)}"])
        return End.WRITTEN
    if command.revision is None:
        found = confirmed(found, teller)
    if command.write is not None:
        write_file(command.write, written(kept.page.address, judged(found, Fate.ADDED, Fate.KNOWN), hand))
        tell([*teller.lines(found), f"written, not sent: {sums(found)}"])
        return End.WRITTEN
    return send_all(desk, command.target, kept.page.address, found, teller)


def tell(lines: Iterable[str]) -> None:
    """Writes lines."""
    write_out("".join(f"{line}\n" for line in lines).encode("utf-8", "replace"))


def judged(found: Sequence[Taken | Skipped], *fates: Fate) -> list[Judged]:
    """The judgements of these fates, each with its finding."""
    return [(one.claim, one.finding) for one in found if isinstance(one, Taken) and one.fate in fates and one.finding is not None]


def tried(found: Sequence[Taken | Skipped], is_sure: bool) -> list[Taken | Skipped]:
    """What would become of each; where it isn't sure that its evidence was seen, that is said."""
    return [dataclasses.replace(one, why="once its evidence is confirmed") if isinstance(one, Taken) and is_open(one) and not is_sure else one
            for one in found]


def send_all(desk: Desk, target: Target, address: str, found: Sequence[Taken | Skipped], teller: Teller) -> int:
    """Sends what is to be added, and says what becomes of each as soon as it is known."""
    added = [one for one in found if isinstance(one, Taken) and one.fate is Fate.ADDED]
    done = [one for one in found if isinstance(one, Skipped) or one.fate is not Fate.ADDED]
    tell(teller.lines(done))
    hand, at = hand_of(desk), 0
    for count, new in send(desk, target, address, judged(added, Fate.ADDED), hand):
        some = added[at:at + count]
        # The page may have been changed, and judged, since it was read.
        fates = some if new == count else settled(some, read_report(desk, target), hand)
        tell(map(teller.line, fates))
        done.extend(fates)
        at += count
    tell([sums(done)])
    return End.WRITTEN


def main(words: Sequence[str], program: str = "earl", example: str = "") -> int:
    """The status of a run."""
    return run_command(program, lambda: work(words, parser(program, example)))
