"""Which findings count by themselves.

A composite rule counts, and what it merges stands beneath it. In a frame's document rules on whole pages count nothing.
"""
from __future__ import annotations

from dataclasses import dataclass

from .report import Finding
from .rules import RuleTable

FRAME = "what stands in a frame is no page: its title, its language and ways to bypass blocks are left out"


@dataclass(frozen=True)
class Counted:
    """The findings that count, in the report's order, and by rule and node of a composite those of its inputs."""

    findings: tuple[Finding, ...]
    beneath: dict[tuple[str, int], tuple[Finding, ...]]


def counted(findings: tuple[Finding, ...], table: RuleTable) -> Counted:
    """The findings that count, and those beneath; an input without its composite, of which no report is, counts by itself."""
    composites = {(finding.rule, finding.node) for finding in findings if table.rule(finding.rule).inputs}
    beneath: dict[tuple[str, int], tuple[Finding, ...]] = {}
    counting = []
    for finding in findings:
        composite = table.composites.get(finding.rule, ""), finding.node
        if composite in composites:
            beneath[composite] = (*beneath.get(composite, ()), finding)
        else:
            counting.append(finding)
    return Counted(tuple(counting), beneath)


def of_frame(findings: tuple[Finding, ...], table: RuleTable) -> tuple[Finding, ...]:
    """The findings on a frame's document, without those of rules on whole pages."""
    return tuple(finding for finding in findings if not table.rule(finding.rule).not_in_frames)
