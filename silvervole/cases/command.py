"""The word cases."""
from __future__ import annotations

import contextlib
import os
from dataclasses import dataclass
from typing import Sequence

from silvervole.books import add_book
from silvervole.check.running import make_folder
from silvervole.check.screen import Screen
from silvervole.collect.browser import find_tools
from silvervole.collect.ends import End, Stop, run_command, write_file, write_out
from silvervole.collect.options import MOST_JOBS, Options, add_opening, whole
from silvervole.program import find_auditor
from silvervole.view.rules import RuleTable, read_rules
from silvervole.words import Parser

from .collecting import Tried, collected
from .earl import report
from .judging import MOST_AT_ONCE, Grade, Graded, judged
from .reading import Case, fetch, folder_of, is_address, read_cases
from .table import Result, exceptions, table

USAGE = "{0} LIST [PLACE] [OPTIONS]"
# More browsers than this at once gain little, and take half a gigabyte each.
USUAL_JOBS = 4


@dataclass(frozen=True)
class Trial:
    """What is to be tried, and how; beside it the cases of rules that the book hasn't."""

    cases: tuple[Case, ...]
    others: tuple[Case, ...]
    book: str
    folder: str
    options: Options
    jobs: int
    earl: str
    out: str


def parser(program: str = "cases", example: str = "") -> Parser:
    """The words of the command."""
    made = Parser(prog=program, usage=USAGE.format(program), example=example,
                  description="Collects the pages of test cases of ACT rules, has the desk judge them, and says for each rule how many "
                              "come out as they should. Ends with 1 where one comes out wrong.")
    made.add_argument("list", metavar="LIST", help="the list of cases as the W3C publishes it, testcases.json: a file, an address, or - for standard input")
    made.add_argument("place", metavar="PLACE", nargs="?", help="the folder or the address below which the pages are (that of the list)")
    made.add_argument("--rule", metavar="ID", action="append", default=[], help="tries the cases of this rule alone; as often as needed")
    add_book(made)
    made.add_argument("--earl", metavar="FILE", default="", help="writes an implementation report as EARL in JSON-LD")
    made.add_argument("--out", metavar="FOLDER", default="", help="keeps the pages' snapshots, as FOLDER/RULE/PAGE.json")
    made.add_argument("--jobs", metavar="N", type=whole(1, MOST_JOBS), default=min(os.cpu_count() or 1, USUAL_JOBS),
                      help=f"how many browsers work beside each other (as many as there are processors, at most {USUAL_JOBS})")
    add_opening(made)
    return made


def read_words(words: Sequence[str], asked: Parser, rules: RuleTable) -> Trial:
    """What the words ask for."""
    given = asked.parse_args(words)
    known = rules.of_book(given.book)
    for rule in given.rule:
        if rule not in known:
            asked.error(f"--rule {rule} is the id of no rule in the book of {given.book}")
    folder = given.place or folder_of(given.list)
    if (given.cookie or given.header) and not is_address(folder):
        asked.error("a file is opened without a server: --cookie and --header have nowhere to go")
    # What stands twice in a list counts once.
    cases = tuple(dict.fromkeys(read_cases(fetch(given.list), given.list)))
    tried = set(given.rule or known)
    options = Options(None, given.wait, given.timeout, given.settle, given.viewport, tuple(given.cookie), tuple(given.header),
                      given.exact, given.follow)
    return Trial(tuple(case for case in cases if case.rule in tried), tuple(case for case in cases if not given.rule and case.rule not in tried),
                 given.book, folder, options, given.jobs, given.earl, given.out)


class Run:
    """One trial of all cases."""

    def __init__(self, trial: Trial, program: str) -> None:
        self.trial = trial
        self.screen = Screen(program, len(trial.cases))
        self.results: dict[Case, Result] = {}
        self.collected: list[tuple[Case, bytes]] = []

    def all(self) -> list[Result]:
        """What became of each case, in the order of the list."""
        try:
            with contextlib.closing(collected(self.trial.cases, self.trial.folder, self.trial.options, self.trial.jobs)) as pages:
                for tried in pages:
                    self.screen.begin(tried.case.path)
                    self.take(tried)
                    self.screen.end()
        finally:
            self.screen.pause()
        self.judge()
        return [self.results[case] for case in self.trial.cases]

    def take(self, tried: Tried) -> None:
        """Takes in a page; as soon as there are as many as the desk takes at once, it judges them."""
        case = tried.case
        for note in tried.notes:
            self.screen.say(f"{case.path}: {note}")
        if tried.stop is not None:
            self.add(case, tried.stop)
            return
        if self.trial.out:
            folder = os.path.join(self.trial.out, case.rule)
            make_folder(folder)
            write_file(os.path.join(folder, f"{os.path.basename(case.path)}.json"), tried.snapshot)
        self.collected.append((case, tried.snapshot))
        if len(self.collected) == MOST_AT_ONCE:
            self.judge()

    def judge(self) -> None:
        """Has the desk judge what was collected."""
        for (case, _), outcome in zip(self.collected, judged(self.collected, self.trial.book)):
            self.add(case, outcome)
        self.collected = []

    def add(self, case: Case, outcome: Graded | Stop) -> None:
        """Keeps what became of a case; a page that couldn't be tried is told, unless it is no HTML, which is no fault."""
        self.results[case] = Result(case, outcome)
        if isinstance(outcome, Stop) and outcome.end is not End.NOT_HTML:
            self.screen.say(f"{case.path}: status {outcome.end.value}: {outcome.line}")


def work(words: Sequence[str], program: str, asked: Parser) -> int:
    """The status of a trial, all of whose grades are told."""
    rules = read_rules()
    trial = read_words(words, asked, rules)
    if not trial.cases:
        raise Stop(End.INPUT, "no case of the list is of a rule that is to be tried")
    find_auditor(trial.book)
    find_tools()
    results = Run(trial, program).all()
    if trial.earl:
        write_file(trial.earl, report(results, rules))
    lines = [*exceptions(results), *others(trial.others, trial.book)]
    write_out("".join(f"{line}\n" for line in [*lines, *([""] if lines else []), *table(results, list(rules.rules))]).encode("utf-8", "replace"))
    return status(results)


def others(cases: Sequence[Case], book: str) -> list[str]:
    """A line on the cases of rules that the book hasn't, where there are any."""
    rules = list(dict.fromkeys(case.rule for case in cases))
    return [f"not tried: {len(cases)} cases of rules that the book of {book} hasn't: {', '.join(rules)}"] if cases else []


def status(results: Sequence[Result]) -> int:
    """The greatest status of pages that couldn't be tried; else 1 where a case came out wrong."""
    lost = [result.outcome.end for result in results if isinstance(result.outcome, Stop) and not result.is_no_page]
    wrong = any(isinstance(result.outcome, Graded) and result.outcome.grade is Grade.WRONG for result in results)
    return max([*lost, End.FAILED if wrong else End.WRITTEN])


def main(words: Sequence[str], program: str = "cases", example: str = "") -> int:
    """The status of a run."""
    return run_command(program, lambda: work(words, program, parser(program, example)))
