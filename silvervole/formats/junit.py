"""JUnit XML: a suite for each page, a test for each finding."""
from __future__ import annotations

import xml.etree.ElementTree as ET

from silvervole.collect.ends import one_line

from .listing import NEW, STAYS, Entry, ListedPage, Listing, LostPage
from .words import accepted_line, lines_of, merged_of, rule_title, unmatched_line

CHECKED = "the page is collected and audited"
# What a test that doesn't fail is passed over for; what passed or is mended passes.
PASSED_OVER = {(STAYS, "failed"): "failed before too", (STAYS, "cantTell"): "a person has to judge, as before",
               (NEW, "cantTell"): "a person has to judge", ("", "cantTell"): "a person has to judge"}


def write_junit(listing: Listing) -> bytes:
    """The findings as JUnit XML; what doesn't fail a pipeline is no failure there."""
    root = ET.Element("testsuites", name="silvervole")
    for page in listing.pages:
        add_suite(root, page)
    for lost in listing.lost:
        add_lost(root, lost)
    if listing.accepted or listing.unmatched:
        add_accepted(root, listing)
    add_totals(root)
    seconds = [page.about.seconds for page in listing.pages if page.about.seconds is not None]
    if seconds:
        root.set("time", f"{sum(seconds):.3f}")
    return ET.tostring(root, encoding="utf-8", xml_declaration=True) + b"\n"


def add_suite(root: ET.Element, page: ListedPage) -> None:
    """Adds the suite of a page."""
    about = page.about
    suite = ET.SubElement(root, "testsuite", name=one_line(about.shown))
    if about.file or about.snapshot:
        suite.set("file", one_line(about.file or about.snapshot))
    if about.seconds is not None:
        suite.set("time", f"{about.seconds:.3f}")
        # A rule has no time of its own: the page is collected once, and audited by all rules at once.
        ET.SubElement(suite, "testcase", classname="silvervole", name=CHECKED, time=f"{about.seconds:.3f}")
    for entry in page.entries:
        if not entry.is_accepted:
            add_case(suite, entry)
    if not len(suite):
        # Readers of JUnit XML refuse a report without any test.
        ET.SubElement(suite, "testcase", classname="silvervole", name=about.note or "nothing failed, nothing to judge")
    add_totals(suite)


def add_case(suite: ET.Element, entry: Entry) -> None:
    """Adds the test of a finding."""
    case = ET.SubElement(suite, "testcase", classname=one_line(rule_title(entry)), name=one_line(entry.where),
                         file=one_line(entry.file), line=str(entry.line))
    text = "\n".join(lines_of(entry))
    if entry.fails:
        ET.SubElement(case, "failure", type="failed", message=one_line(entry.why)).text = text
    elif (passed_over := passed_over_for(entry)) is not None:
        ET.SubElement(case, "skipped", message=passed_over).text = text
    if entry.beneath:
        ET.SubElement(case, "system-out").text = "\n".join(merged_of(entry))


def passed_over_for(entry: Entry) -> str | None:
    """Why the test of a finding is passed over; None where it passes."""
    if entry.is_accepted and entry.acceptance is not None:
        return accepted_line(entry.acceptance)
    return PASSED_OVER.get((entry.change, entry.outcome))


def add_lost(root: ET.Element, lost: LostPage) -> None:
    """Adds the suite of a page that couldn't be checked: one test with an error."""
    suite = ET.SubElement(root, "testsuite", name=one_line(lost.name))
    case = ET.SubElement(suite, "testcase", classname="silvervole", name=CHECKED)
    ET.SubElement(case, "error", type="not checked", message=one_line(lost.why))
    add_totals(suite)


def add_accepted(root: ET.Element, listing: Listing) -> None:
    """Adds the suite of what the team accepts, and of what it accepts though nothing like it failed."""
    suite = ET.SubElement(root, "testsuite", name="accepted findings")
    for entry in listing.accepted:
        add_case(suite, entry)
    for acceptance in listing.unmatched:
        case = ET.SubElement(suite, "testcase", classname=acceptance.rule, name=acceptance.place)
        ET.SubElement(case, "skipped", message=unmatched_line(acceptance))
    add_totals(suite)


def add_totals(element: ET.Element) -> None:
    """Counts the tests below an element, in its attributes."""
    for name, tag in (("tests", "testcase"), ("failures", "failure"), ("errors", "error"), ("skipped", "skipped")):
        element.set(name, str(sum(1 for _ in element.iter(tag))))
