"""Makes the list of findings: of an audited page, and of two audits that were compared."""
from __future__ import annotations

from dataclasses import replace
from typing import Iterable, Mapping, Sequence

from silvervole.check.subjects import file_of
from silvervole.compare.changes import Change, PageChanges
from silvervole.compare.places import Place, Places
from silvervole.compare.reading import Audit
from silvervole.view.counting import FRAME, counted, of_frame
from silvervole.view.findings import NOTHING, Target, TargetMaker, advice_on, bring_together
from silvervole.view.page import Page
from silvervole.view.pictures import Picture
from silvervole.view.report import Finding, Report
from silvervole.view.rules import RuleTable
from silvervole.view.verdicts import Said

from .earlier import NO_EARLIER, Earlier
from .fingerprints import Key, fingerprints, kept
from .listing import MENDED, AboutPage, Entry, ListedPage, Listing, worst_first
from .source import Lines


class EntryMaker:
    """Makes the entries of one audit of a page; without its snapshot they have no path and no start tag."""

    def __init__(self, about: AboutPage, audit: Audit, table: RuleTable, targets: TargetMaker | None = None, said: Said | None = None) -> None:
        self.about = about
        self.said = said or {}
        self.table = table
        self.targets = targets or (TargetMaker(audit.page, None) if audit.page is not None else None)
        self.places = self.places_of(audit)
        self.marks: Mapping[Key, str] = fingerprints(about.address, audit.page, audit.findings, self.places)
        self.lines = Lines(audit.page, about.address, about.file, about.snapshot)

    def places_of(self, audit: Audit) -> dict[int, Place]:
        """The places of the audit's findings, by the numbers of their nodes."""
        numbers = {finding.node for finding in audit.findings}
        if audit.page is None or self.targets is None:
            return {number: Place(number) for number in numbers}
        places, nodes = Places(audit.page), audit.page.nodes
        return {number: Place(number, nodes[number].element.folded, places.label(nodes[number].element), self.targets.target(number).path)
                for number in numbers}

    def entry(self, finding: Finding, beneath: Iterable[Finding] = (), change: str = "", merged_in: str = "") -> Entry:
        """The entry of a finding, and beneath it those of what it merges."""
        rule = self.table.rule(finding.rule)
        return Entry(
            self.about, rule, finding.outcome, finding.reason, finding.judge, finding.automatic,
            advice_on(rule, finding.reason, finding.outcome, finding.automatic), self.target(finding),
            self.places[finding.node], self.marks[finding.rule, finding.node], self.lines.path, self.lines.line(finding.node),
            change, tuple(self.entry(merged, merged_in=finding.rule) for merged in beneath), merged_in,
            said=self.said.get((finding.rule, finding.node), ()))

    def target(self, finding: Finding) -> Target:
        """What is said of the finding's node."""
        if self.targets is not None:
            return self.targets.found(finding)
        return Target(finding.node, "", False, "", "", NOTHING, NOTHING, "", None)


def about_page(page: Page, report: Report, name: str = "", file: str = "", snapshot: str = "", seconds: float | None = None) -> AboutPage:
    """What is said of a page as a whole."""
    address = report.address or page.address
    note = FRAME if page.in_frame else ""
    return AboutPage(name or address, address, page.title, page.state, report.revision, len(page.nodes), file, snapshot, seconds, note)


def listed_page(about: AboutPage, page: Page, report: Report, table: RuleTable, picture: Picture | None = None,
                said: Said | None = None) -> ListedPage:
    """The findings of a report on a page; a Stop with the status INPUT where the report is of another page."""
    targets = TargetMaker(page, picture)
    view = bring_together(report, page, table, picture, targets)
    findings = of_frame(report.findings, table) if page.in_frame else report.findings
    count = counted(findings, table)
    maker = EntryMaker(about, Audit(about.name, findings, page), table, targets, said)
    entries = [maker.entry(finding, count.beneath.get((finding.rule, finding.node), ())) for finding in count.findings]
    return ListedPage(about, tuple(worst_first(entries)), view.inapplicable, view, picture)


def compared_page(changes: PageChanges, old: Audit | None, new: Audit | None, table: RuleTable, earlier: Earlier) -> ListedPage:
    """What became of the findings on a page of which there are two audits, or one."""
    olds = EntryMaker(about_audit(changes, old), old, table) if old is not None else None
    news = EntryMaker(about_audit(changes, new, with_file=True), new, table) if new is not None else None
    if olds is not None and old is not None:
        olds.marks = {**olds.marks, **earlier.marks(old.snapshot)}
    if olds is not None and news is not None:
        news.marks = kept(olds.marks, news.marks, pairs_of(changes.changes))
    about = news.about if news is not None else olds.about if olds is not None else AboutPage(changes.name, changes.name)
    entries = [replace(entry, page=about) for change in changes.changes if (entry := entry_of(change, olds, news)) is not None]
    view = bring_together(new.report, new.page, table, None) if new is not None and new.page is not None and new.report is not None else None
    return ListedPage(about, tuple(worst_first(entries)), (), view)


def entry_of(change: Change, olds: EntryMaker | None, news: EntryMaker | None) -> Entry | None:
    """The entry of a change, made from the audit that has what is spoken of."""
    maker = olds if change.kind.value == MENDED else news
    return maker.entry(change.shown.finding, change.merged, change.kind.value) if maker is not None else None


def about_audit(changes: PageChanges, audit: Audit, with_file: bool = False) -> AboutPage:
    """What is said of the page of an audit; the page's own file, where it has one, is as the later audit had it."""
    page, note = audit.page, "; ".join(filter(None, (changes.note, changes.frame)))
    if page is None:
        return AboutPage(changes.name, audit.name, note=note)
    file = file_of(page.address) if with_file and not page.in_frame else ""
    return AboutPage(changes.name, page.address, page.title, page.state, page.revision, len(page.nodes), file, audit.snapshot, None, note)


def compared(changes: Sequence[PageChanges], olds: Mapping[str, Audit], news: Mapping[str, Audit], table: RuleTable,
             earlier: Earlier = NO_EARLIER) -> Listing:
    """What became of the findings of all pages, by the names under which the audits have them."""
    names = [*news, *(name for name in olds if name not in news)]
    return Listing(tuple(compared_page(change, olds.get(name), news.get(name), table, earlier) for name, change in zip(names, changes)), compared=True)


def pairs_of(changes: Iterable[Change]) -> list[tuple[Key, Key]]:
    """The findings that are in both audits, each by its rule and its nodes."""
    return [((change.old.finding.rule, change.old.finding.node), (change.new.finding.rule, change.new.finding.node))
            for change in changes if change.old is not None and change.new is not None]
