"""Reads the desk's text report of a page."""
from __future__ import annotations

import re
from collections import Counter
from dataclasses import dataclass

from silvervole.collect.ends import End, Stop

OUTCOMES = ("failed", "cantTell", "passed")
FINDING = re.compile(r"([0-9a-z]{6}) node ([1-9][0-9]{0,9}) (passed|failed|cantTell) (?:judged by (.+)|([a-z][a-z0-9-]*))", re.DOTALL)
INAPPLICABLE = re.compile(r"([0-9a-z]{6}) inapplicable")
LAST = re.compile(r"passed ([0-9]+) failed ([0-9]+) cantTell ([0-9]+) inapplicable ([0-9]+)")


@dataclass(frozen=True)
class Finding:
    """The final outcome of one rule on one node, with its reason, and the name of who judged it.

    A text report has one of the two, and the other is empty. Only the reply to `outcomes` has both, and with them the
    automatic outcome, which is empty else, and the evidence, which is None else.
    """

    rule: str
    node: int
    outcome: str
    reason: str
    judge: str
    automatic: str = ""
    evidence: str | None = None


@dataclass(frozen=True)
class Report:
    """A page's findings in order and the rules without a target.

    A text report has the page's address, the reply to `outcomes` its revision; each is None in the other.
    """

    address: str | None
    findings: tuple[Finding, ...]
    inapplicable: tuple[str, ...]
    revision: int | None = None

    @property
    def rules(self) -> set[str]:
        """The ids of all rules by which the page was audited."""
        return {*self.inapplicable, *(finding.rule for finding in self.findings)}


def read_report(data: bytes, path: str) -> Report:
    """The report that the bytes hold, all of it or a Stop."""
    def refuse(why: str) -> Stop:
        return Stop(End.INPUT, f"{path} is no report of the desk: {why}")

    try:
        lines = data.decode("utf-8").split("\n")
    except UnicodeDecodeError:
        raise refuse("it isn't in UTF-8") from None
    if lines == [""]:
        raise refuse("it is empty; the desk's own line on standard error says why it wrote none")
    if not re.fullmatch(r"page https?://\S+", lines[0]) or lines[-1] != "" or len(lines) < 3:
        raise refuse("it has no first line with a page's address, or no last line")
    findings, inapplicable = [], []
    for place, line in enumerate(lines[1:-2], 2):
        if found := FINDING.fullmatch(line):
            rule, node, outcome, judge, reason = found.groups()
            findings.append(Finding(rule, int(node), outcome, reason or "", judge or ""))
        elif found := INAPPLICABLE.fullmatch(line):
            inapplicable.append(found.group(1))
        else:
            raise refuse(f"its line {place} is none of a report")
    last = LAST.fullmatch(lines[-2])
    counts = Counter(finding.outcome for finding in findings)
    wanted = (counts["passed"], counts["failed"], counts["cantTell"], len(inapplicable))
    if last is None or tuple(map(int, last.groups())) != wanted:
        raise refuse("its last line doesn't count what stands above it")
    return Report(lines[0][len("page "):], tuple(findings), tuple(inapplicable))
