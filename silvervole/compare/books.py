"""Says where two audits are by different books of rules."""
from __future__ import annotations

from silvervole.books import BOOKS
from silvervole.view.rules import RuleTable

from .reading import Audit


def books_told(olds: dict[str, Audit], news: dict[str, Audit], table: RuleTable) -> str:
    """What there is to say of the books of pages that both have; empty where they are the same."""
    for name, new in news.items():
        before, after = book_of(olds.get(name), table), book_of(new, table)
        if before and after and before != after:
            more = "all that its further rules find is new" if BOOKS[before] < BOOKS[after] else "what further rules found counts as mended"
            return f"OLD is by the book of {before} and NEW by that of {after}: {more}"
    return ""


def book_of(audit: Audit | None, table: RuleTable) -> str:
    """The book by which a page was audited; empty where it wasn't."""
    return table.book_with(audit.report.rules) if audit is not None and audit.report is not None else ""
