"""Reads audits: the desk's text reports and replies, alone or as folders of many pages."""
from __future__ import annotations

import pathlib
from dataclasses import dataclass

from silvervole.collect.ends import End, Stop
from silvervole.view.command import read_findings
from silvervole.view.files import read
from silvervole.view.page import Page, read_page
from silvervole.view.report import Finding, Report


@dataclass(frozen=True)
class Audit:
    """What was found on a page, and the page itself where its snapshot is given; the report, and the snapshot's file."""

    name: str
    findings: tuple[Finding, ...]
    page: Page | None
    report: Report | None = None
    snapshot: str = ""


def read_audit(path: str, snapshot: str | None) -> Audit:
    """The audit of a file: a text report, or a reply to `outcomes`."""
    report = read_findings(path)
    page = read_page(read(snapshot), snapshot) if snapshot is not None else None
    name = page.address if page is not None else report.address or path
    if page is not None:
        strange = next((finding for finding in report.findings if finding.node not in page.nodes), None)
        if strange is not None:
            raise Stop(End.INPUT, f"{path} speaks of node {strange.node}, which {snapshot} doesn't hold: it is of another page")
    return Audit(name, report.findings, page, report, snapshot or "")


def read_folder(path: str) -> dict[str, Audit]:
    """The audits of a folder by their names: each NAME.txt, with NAME.json as its snapshot where it is there."""
    reports = sorted(pathlib.Path(path).glob("*.txt"))
    if not reports:
        raise Stop(End.INPUT, f"{path} holds no report: no file there ends in .txt")
    return {report.stem: read_audit(str(report), snapshot_beside(report)) for report in reports}


def snapshot_beside(report: pathlib.Path) -> str | None:
    """The snapshot of the same name; None where there is none."""
    snapshot = report.with_suffix(".json")
    return str(snapshot) if snapshot.is_file() else None
