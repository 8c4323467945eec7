"""Which ACT rule a test of EARL is."""
from __future__ import annotations

import re
from typing import Iterable

from silvervole.view.rules import RuleTable

from .finding import Unmapped

IDENTITY = r"(?P<id>[0-9a-z]{6})"
# As the desk writes it, as the W3C and the rules' community publish it, and by itself.
NAMES = [re.compile(form) for form in (
    rf"urn:act-rule:{IDENTITY}",
    rf"https?://(?:www\.)?w3\.org/WAI/standards-guidelines/(?:[a-z]{{2}}(?:-[a-z]+)?/)?act/rules/{IDENTITY}(?:/proposed)?/?(?:[#?].*)?",
    rf"https?://act-rules\.github\.io/rules/{IDENTITY}/?(?:[#?].*)?",
    IDENTITY)]
CRITERION = re.compile(r"https?://(?:www\.)?w3\.org/(?:TR/(?:UNDERSTANDING-)?WCAG2|WAI/WCAG2).*", re.IGNORECASE)


def identity_in(name: str) -> str:
    """The id of the rule that a test's name is; empty where it is none's."""
    return next((found["id"] for form in NAMES if (found := form.fullmatch(name))), "")


def rule_of(tests: Iterable[str], known: set[str], table: RuleTable) -> str:
    """The id of the rule that the names of a test mean."""
    names = list(tests)
    found = list(dict.fromkeys(filter(None, map(identity_in, names))))
    if len(found) > 1:
        raise Unmapped(f"its tests are several rules: {', '.join(found)}")
    if not found:
        raise Unmapped("its test is a success criterion, and no rule" if any(map(CRITERION.fullmatch, names)) else
                       "its test is no ACT rule" if names else "it says no test")
    if table.rule(found[0]).inputs:
        raise Unmapped("nobody judges a rule that merges others: judge those")
    if found[0] not in known:
        raise Unmapped("the desk has no such rule")
    return found[0]
