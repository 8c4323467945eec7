"""The page docs/use/findings.md, told from silvervole/data/rules.json."""
from __future__ import annotations

from .rules import Rule, RuleTable

HEAD = """# What a finding means, and what mends it

For those who mend pages: what each reason of a report means, and what usually mends it, rule by rule. `ok` stands for a
target that meets no other reason. What exactly a rule asks stands in [rules.md](rules.md).

This page is made from `silvervole/data/rules.json` by `collector/keep`, and [the view](collecting.md#the-view) shows
the same words. Mend the words there.
"""


def findings_document(table: RuleTable) -> str:
    """The page's text."""
    return HEAD + "".join(f"\n{section(rule)}" for rule in table.rules.values())


def section(rule: Rule) -> str:
    """What stands of one rule."""
    criteria = ", ".join(f"[{one.number}]({one.link}) ({one.level})" for one in rule.criteria)
    lines = [f"## [`{rule.id}`]({rule.link}) {rule.name}", "", f"WCAG 2.2 {criteria}." if criteria else "It counts under no criterion by itself.", ""]
    lines += [f"- `{reason}` ({outcome}): {shown(advice.means)} *Do:* {shown(advice.mends)}"
              for (reason, outcome), advice in rule.advice.items()]
    return "\n".join(lines) + "\n"


def shown(text: str) -> str:
    """The text as Markdown shows it."""
    return text.replace("<", "&lt;").replace("*", "\\*")
