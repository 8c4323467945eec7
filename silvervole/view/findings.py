"""Brings a report, its page and the rules together, in the order in which people read them."""
from __future__ import annotations

import re
from collections import Counter
from dataclasses import dataclass, field, replace
from typing import Mapping, Sequence

from silvervole.collect.ends import End, Stop

from .counting import Counted, counted, of_frame
from .page import Page, Quote, start_tag
from .paths import css_path
from .pictures import Crop, Picture
from .report import OUTCOMES, Finding, Report
from .rules import Advice, Criterion, Rule, RuleTable


# An address that the desk prints as it stands in the snapshot; what a parser would write otherwise isn't plain.
PLAIN = re.compile(r"https?://[a-z][a-z0-9.-]*/[A-Za-z0-9/?&=%_~+,;:@#!$*()-]*")

NOTHING = Quote("", "")


# Of many elements that own one the first few are shown.
MOST_OWNERS = 3


@dataclass(frozen=True)
class Owner:
    """An element that owns another one by aria-owns."""

    number: int
    tag: str


@dataclass(frozen=True)
class Target:
    """What is said of one node."""

    number: int
    kind: str
    is_root: bool
    path: str
    tag: str
    text: Quote
    heading: Quote
    heading_tag: str
    crop: Crop | None
    # What the rule rests on there; None where the report doesn't say.
    evidence: Quote | None = None
    # The first elements that own it, and how many more do.
    owners: tuple[Owner, ...] = ()
    more_owners: int = 0


@dataclass(frozen=True)
class ReasonPart:
    """The targets of one rule that have one outcome for one reason, by one judge, where the rule alone had one outcome."""

    reason: str
    judge: str
    automatic: str
    advice: Advice | None
    targets: tuple[Target, ...]


@dataclass(frozen=True)
class RulePart:
    """The findings of one rule with one outcome, and beneath a composite those of the rules that it merges."""

    rule: Rule
    outcome: str
    parts: tuple[ReasonPart, ...]
    merged: tuple[RulePart, ...] = ()

    @property
    def count(self) -> int:
        return sum(len(part.targets) for part in self.parts)


@dataclass(frozen=True)
class CriterionLine:
    """How many findings count under a criterion; without one, under none."""

    criterion: Criterion | None
    counts: dict[str, int]
    rules: tuple[RulePart, ...]


@dataclass(frozen=True)
class Findings:
    """All that the view shows.

    Where a team accepts findings, those stand apart. `notes` has what else is said of a finding, by its rule and node, and
    `unmatched` a line for each acceptance that matches nothing.
    """

    address: str
    revision: int | None
    title: Quote
    state: str
    nodes: int
    counts: dict[str, int]
    sections: dict[str, tuple[RulePart, ...]]
    criteria: tuple[CriterionLine, ...]
    quiet: tuple[Criterion, ...]
    inapplicable: tuple[Rule, ...]
    rules: tuple[tuple[Rule, dict[str, int]], ...]
    has_picture: bool
    in_frame: bool
    accepted: tuple[RulePart, ...] = ()
    notes: Mapping[tuple[str, int], tuple[str, ...]] = field(default_factory=dict)
    unmatched: tuple[str, ...] = ()


def bring_together(report: Report, page: Page, table: RuleTable, picture: Picture | None, makers: TargetMaker | None = None,
                   told: Sequence[str] = OUTCOMES) -> Findings:
    """The findings of a report on this page; a Stop with the status INPUT where it is of another page.

    Those of other outcomes than are told are counted, and no more is said of them.
    """
    check_page(report, page)
    makers = makers or TargetMaker(page, picture)
    if page.in_frame:
        report = replace(report, findings=of_frame(report.findings, table),
                         inapplicable=tuple(identity for identity in report.inapplicable if not table.rule(identity).not_in_frames))
    count = counted(report.findings, table)
    sections = {outcome: with_merged(parts_of(count.findings, outcome, table, makers), count, table, makers) if outcome in told else ()
                for outcome in OUTCOMES}
    by_rule: dict[str, dict[str, int]] = {}
    for finding in count.findings:
        counts = by_rule.setdefault(finding.rule, dict.fromkeys(OUTCOMES, 0))
        counts[finding.outcome] += 1
    lines, quiet = criterion_lines(sections, table, [rule for rule in table.rules.values() if not (page.in_frame and rule.not_in_frames)])
    totals = Counter(finding.outcome for finding in count.findings)
    return Findings(
        report.address or page.address, report.revision, page.title, page.state, len(page.nodes),
        {outcome: totals[outcome] for outcome in OUTCOMES}, sections, lines, quiet,
        tuple(table.rule(identity) for identity in report.inapplicable),
        tuple((table.rule(identity), counts) for identity, counts in by_rule.items()), picture is not None, page.in_frame)


def check_page(report: Report, page: Page) -> None:
    """A Stop with the status INPUT where the report is of another page or another revision, as far as can be told."""
    if report.address is not None and PLAIN.fullmatch(page.address) and page.address != report.address:
        raise Stop(End.INPUT, f"the report is of {report.address}, the snapshot of {page.address}")
    if None not in (report.revision, page.revision) and report.revision != page.revision:
        raise Stop(End.INPUT, f"the outcomes are of revision {report.revision}, the page is of revision {page.revision}")
    strange = next((finding for finding in report.findings if finding.node not in page.nodes), None)
    if strange is not None:
        raise Stop(End.INPUT, f"the report speaks of node {strange.node}, which the snapshot doesn't hold: it is of another page")


class TargetMaker:
    """Says of a node what people need to find it, once for each node; the heading before it only where that is wanted."""

    def __init__(self, page: Page, picture: Picture | None, headings: bool = True) -> None:
        self.page = page
        self.picture = picture
        self.headings = headings
        self.made: dict[int, Target] = {}

    def found(self, finding: Finding) -> Target:
        """What is said of the node of a finding, with the evidence where the finding has it."""
        target = self.target(finding.node)
        if finding.evidence is None:
            return target
        return replace(target, evidence=Quote(finding.evidence, self.page.languages[finding.node]))

    def target(self, number: int) -> Target:
        """What is said of the node with this number."""
        if number not in self.made:
            self.made[number] = self.make(number)
        return self.made[number]

    def make(self, number: int) -> Target:
        node = self.page.nodes[number]
        element = node.element
        is_root = element is self.page.root
        heading = self.page.headings_above.get(number) if self.headings else None
        owners = self.page.owners.get(number, ())
        return Target(
            number, element.tag if node.is_element else f"text in {element.tag}", is_root, css_path(self.page, node),
            start_tag(element), NOTHING if is_root else self.page.quote(node),
            self.page.quote(heading) if heading else NOTHING, heading.tag if heading else "",
            self.picture.crop(element) if self.picture else None,
            owners=tuple(Owner(owner, start_tag(self.page.nodes[owner])) for owner in owners[:MOST_OWNERS]),
            more_owners=max(0, len(owners) - MOST_OWNERS))


def parts_of(findings: tuple[Finding, ...], outcome: str, table: RuleTable, makers: TargetMaker) -> tuple[RulePart, ...]:
    """The rules with findings of this outcome, in the report's order."""
    grouped: dict[str, dict[tuple[str, str, str], list[Target]]] = {}
    for finding in findings:
        if finding.outcome == outcome:
            reasons = grouped.setdefault(finding.rule, {})
            reasons.setdefault((finding.reason, finding.judge, finding.automatic), []).append(makers.found(finding))
    parts = []
    for identity, reasons in grouped.items():
        rule = table.rule(identity)
        parts.append(RulePart(rule, outcome, tuple(
            ReasonPart(reason, judge, automatic, advice_on(rule, reason, outcome, automatic), tuple(targets))
            for (reason, judge, automatic), targets in reasons.items())))
    return tuple(parts)


def with_merged(parts: tuple[RulePart, ...], count: Counted, table: RuleTable, makers: TargetMaker) -> tuple[RulePart, ...]:
    """The rules, beneath each composite the findings of its inputs on its targets, in their order and with any outcome."""
    made = []
    for part in parts:
        beneath = findings_beneath(part, count)
        merged = [one for outcome in OUTCOMES for one in parts_of(beneath, outcome, table, makers)]
        made.append(replace(part, merged=tuple(sorted(merged, key=lambda one: part.rule.inputs.index(one.rule.id)))))
    return tuple(made)


def findings_beneath(part: RulePart, count: Counted) -> tuple[Finding, ...]:
    """What a composite merges on its targets."""
    numbers = (target.number for reason in part.parts for target in reason.targets)
    return tuple(finding for number in numbers for finding in count.beneath.get((part.rule.id, number), ()))


def advice_on(rule: Rule, reason: str, outcome: str, automatic: str) -> Advice | None:
    """What is said of a reason with its final outcome, or else with the rule's own, which a person judged; None where nothing is."""
    return rule.advice_for(reason, outcome) or rule.advice_for(reason, automatic)


def criterion_lines(sections: dict[str, tuple[RulePart, ...]], table: RuleTable,
                    rules: list[Rule]) -> tuple[tuple[CriterionLine, ...], tuple[Criterion, ...]]:
    """A line for each criterion with findings, last one for rules under none; and the criteria of these rules without any."""
    lines, quiet = [], []
    for criterion in (*table.criteria, None):
        parts = [part for outcome in OUTCOMES for part in sections[outcome]
                 if (criterion in part.rule.criteria if criterion else not part.rule.criteria)]
        if parts:
            counts = {outcome: sum(part.count for part in parts if part.outcome == outcome) for outcome in OUTCOMES}
            lines.append(CriterionLine(criterion, counts, tuple(parts)))
        elif criterion and any(criterion in rule.criteria for rule in rules):
            quiet.append(criterion)
    return tuple(lines), tuple(quiet)
