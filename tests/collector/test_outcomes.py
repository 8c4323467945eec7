"""The view of the desk's reply to `outcomes`: what it shows, and which replies it refuses."""
from __future__ import annotations

import hashlib
import html.parser
import json
import pathlib
import tempfile
from dataclasses import dataclass, field
from typing import Any

from silvervole.collect.ends import End, Stop
from silvervole.view.outcomes import read_outcomes

from ..support import ROOT, VIEW, expect, refused, run, same
from .test_view import accessible, axe, contrast, opened, self_audit

HTTP = ROOT / "docs" / "use" / "http.md"
SNAPSHOT = """{"url":"https://example.org/","nodes":[
{"n":1,"p":null,"tag":"html","attrs":[["lang","en"]]},
{"n":2,"p":1,"tag":"body"},
{"n":3,"p":2,"tag":"a","attrs":[["href","/books"]],"f":"rvft"},
{"n":4,"p":3,"text":"Books"},
{"n":5,"p":2,"tag":"h1"},
{"n":6,"p":5,"text":"Opening hours"},
{"n":7,"p":2,"tag":"h2"},
{"n":8,"p":7,"text":"Find us"},
{"n":9,"p":2,"tag":"h2"},
{"n":10,"p":9,"text":"News"}]}
"""
Row = dict[str, Any]


def row(rule: str, node: int, automatic: str, reason: str, evidence: str = "", outcome: str = "", by: str = "") -> Row:
    """An outcome as docs/use/http.md has it; the final one is the automatic one where no other is given."""
    return {"automatic": automatic, "by": by, "digest": hashlib.sha256(evidence.encode("utf-8")).hexdigest(), "evidence": evidence,
            "node": node, "outcome": outcome or automatic, "reason": reason, "rule": rule}


def reply(rows: list[Row], inapplicable: tuple[str, ...] = (), rev: int = 7, ascii_only: bool = False) -> str:
    """The reply that has these outcomes, as the desk writes it."""
    return json.dumps({"inapplicable": list(inapplicable), "outcomes": rows, "rev": rev}, separators=(",", ":"), ensure_ascii=ascii_only)


# The heading of docs/use/judgements.md that turns the composite, and other rows of each kind on the page above.
ROWS = [
    row("2779a5", 1, "failed", "no-title"),
    row("c487ae", 3, "passed", "ok", "link\nBooks"),
    row("b49b2e", 5, "cantTell", "judge-heading", "heading\nOpening hours", "failed", "bob"),
    row("b49b2e", 7, "cantTell", "judge-heading", "heading\nFind us", "cantTell", "eve"),
    row("b49b2e", 9, "cantTell", "judge-heading", "heading\nNews"),
    row("047fe0", 1, "cantTell", "judge-heading-start", "Opening hours\nFind us\nNews", "passed", "ann"),
    row("b40fd1", 1, "failed", "no-landmark"),
    row("ye5d6e", 1, "failed", "no-skip-link"),
    row("3e12e1", 1, "failed", "no-collapse"),
    row("cf77f2", 1, "cantTell", "merged", "", "passed"),
]
REPLY = reply(ROWS, ("73f2c2",))
# The text report of the same page, by docs/use/desk.md.
REPORT = """page https://example.org/
2779a5 node 1 failed no-title
c487ae node 3 passed ok
b49b2e node 5 failed judged by bob
b49b2e node 7 cantTell judged by eve
b49b2e node 9 cantTell judge-heading
047fe0 node 1 passed judged by ann
b40fd1 node 1 failed no-landmark
ye5d6e node 1 failed no-skip-link
3e12e1 node 1 failed no-collapse
cf77f2 node 1 passed merged
73f2c2 inapplicable
passed 3 failed 5 cantTell 2 inapplicable 1
"""
SECTIONS = ["failed-2779a5", "failed-b49b2e", "cantTell-b49b2e", "passed-c487ae", "passed-cf77f2"]
# What stands beneath the composite, and counts through it alone.
MERGED = ["passed-047fe0", "failed-b40fd1", "failed-ye5d6e", "failed-3e12e1"]


@dataclass
class Element:
    """An element of a view and the text in it, with a space at each edge of a block."""

    tag: str
    attrs: dict[str, str | None]
    texts: list[str] = field(default_factory=list)

    @property
    def text(self) -> str:
        return "".join(self.texts)

    @property
    def words(self) -> str:
        """The text with one space between its words."""
        return " ".join(self.text.split())


class Reader(html.parser.HTMLParser):
    """Reads the elements of an HTML file in order."""

    VOID = {"meta", "input", "br"}
    IN_LINES = {"a", "bdi", "code", "span"}

    def __init__(self) -> None:
        super().__init__()
        self.elements: list[Element] = []
        self.open: list[Element] = []
        self.crossed: list[str] = []

    def handle_starttag(self, tag: str, attrs: list[tuple[str, str | None]]) -> None:
        self.edge(tag)
        self.elements.append(Element(tag, dict(attrs)))
        if tag not in self.VOID:
            self.open.append(self.elements[-1])

    def handle_endtag(self, tag: str) -> None:
        if not self.open or self.open.pop().tag != tag:
            self.crossed.append(tag)
        self.edge(tag)

    def handle_data(self, data: str) -> None:
        for element in self.open:
            element.texts.append(data)

    def edge(self, tag: str) -> None:
        """Keeps the words on both sides of a block apart."""
        if tag not in self.IN_LINES:
            self.handle_data(" ")


class View:
    """The HTML file that the view makes of a snapshot and a report."""

    def __init__(self, report: str, snapshot: str = SNAPSHOT, name: str = "home.outcomes") -> None:
        with tempfile.TemporaryDirectory() as folder:
            page, given = pathlib.Path(folder, "home.json"), pathlib.Path(folder, name)
            page.write_text(snapshot, encoding="utf-8")
            given.write_text(report, encoding="utf-8")
            code, out, err = run(page, given, program=VIEW)
        same(f"the view of {name} is written", (code, err), (End.WRITTEN, ""))
        reader = Reader()
        reader.feed(out.decode("utf-8"))
        same("tags that close what isn't open", (reader.crossed, reader.open), ([], []))
        self.elements = reader.elements

    def find(self, identity: str) -> Element:
        """The element with an id; one without a text where there is none."""
        return next((element for element in self.elements if element.attrs.get("id") == identity), Element("", {}))

    def inside(self, identity: str, tag: str, kind: str = "") -> list[Element]:
        """The elements of a tag, and of a class where one is given, that come after an id and before the next rule or section."""
        start = self.elements.index(self.find(identity))
        found = []
        for element in self.elements[start + 1:]:
            if element.tag == "section" or "data-rule" in element.attrs or element.attrs.get("id") in MERGED:
                break
            if element.tag == tag and kind in (element.attrs.get("class") or ""):
                found.append(element)
        return found

    def verdicts(self, identity: str) -> list[str]:
        """What is said of the outcomes of a rule, one for each reason and judge."""
        return [element.words for element in self.inside(identity, "p", "verdict")]

    def evidence(self, identity: str) -> list[str]:
        """The evidence of each target of a rule."""
        return [element.text for element in self.inside(identity, "dd", "evidence")]

    def words(self, tag: str) -> list[str]:
        """The words of each element of a tag."""
        return [element.words for element in self.elements if element.tag == tag]

    def ids(self, start: str) -> list[str]:
        """The ids of the elements whose class begins so, in order."""
        return [element.attrs["id"] or "" for element in self.elements
                if (element.attrs.get("class") or "").split()[:1] == [start] and "id" in element.attrs]


def test_outcomes() -> None:
    """Who judged what: an automatic, a judged and a composite row, one that is left open, and one that nobody judged."""
    view = View(REPLY)
    same("the rules, by final outcome", view.ids("rule"), SECTIONS)
    same("what the composite merges", view.ids("merged"), MERGED)
    for identity, verdicts, evidence, says in (
            ("failed-2779a5", ["Final outcome: failed. By the rule alone: failed, for the reason no-title."], ["none"], "The page has no title element"),
            ("failed-b49b2e", ["Final outcome: failed, judged by bob. By the rule alone: to judge, for the reason judge-heading."],
             ["heading\nOpening hours"], "What usually mends it Read the headings alone"),
            ("cantTell-b49b2e", ["Final outcome: to judge, left open by eve. By the rule alone: to judge, for the reason judge-heading.",
                                 "Final outcome: to judge. By the rule alone: to judge, for the reason judge-heading."],
             ["heading\nFind us", "heading\nNews"], "What to do Read the headings alone"),
            ("passed-c487ae", ["Final outcome: passed. By the rule alone: passed, for the reason ok."], ["link\nBooks"], "Link has non-empty accessible name"),
            ("passed-047fe0", ["Final outcome: passed, judged by ann. By the rule alone: to judge, for the reason judge-heading-start."],
             ["Opening hours\nFind us\nNews"], "There are headings. Whether one of them stands at the beginning"),
            ("passed-cf77f2", ["Final outcome: passed, as the rules that it merges were judged. By the rule alone: to judge, for the reason merged."],
             ["none"], "A person judged that at least one of the four ways past what pages repeat is there.")):
        same(f"the verdicts of {identity}", view.verdicts(identity), verdicts)
        same(f"the evidence of {identity}", view.evidence(identity), evidence)
        expect(f"the advice of {identity}", says in view.find(identity).words, view.find(identity).words)
    same("what is said of a target", view.find("failed-b49b2e-5").words,
         "h1 node 5 Start tag <h1> CSS path html > body > h1 Text Opening hours Heading above none Evidence heading Opening hours")
    same("the title", view.words("title"), ["2 failed, 2 to judge: findings on https://example.org/"])
    same("the address and the revision", [element.words for element in view.elements if element.attrs.get("class") == "address"],
         ["https://example.org/", "Revision 7 of the page in the desk"])
    same("the counts by criterion", [words.split(" none: ")[0] for words in view.words("tr")[1:4]], [
        "2.4.1 Bypass Blocks A 0 0 1", "2.4.2 Page Titled A 1 0 0 HTML page has non-empty title (1 failed)", "2.4.4 Link Purpose (In Context) A 0 0 1"])
    expect("what it was made from", "from the desk's reply to outcomes and the page's snapshot of 10 nodes" in view.words("footer")[0])


def documented(start: str) -> str:
    """The first body of docs/use/http.md that begins so."""
    return next(line for line in HTTP.read_text(encoding="utf-8").splitlines() if line.startswith(start))


def test_documented_outcomes(folder: str) -> None:
    """The reply that docs/use/http.md shows, with the page that it shows: a title that bob judged."""
    given, page = documented('{"inapplicable":["de46e4"'), documented('{"rev":2,"snapshot":')
    view = View(given, page)
    same("the rules of the documented reply", view.ids("rule"), ["passed-2779a5", "passed-c4a8a4", "passed-b5c3f8", "passed-bf051a"])
    same("what bob judged", view.verdicts("passed-c4a8a4"),
         ["Final outcome: passed, judged by bob. By the rule alone: to judge, for the reason judge-title."])
    same("on which evidence", view.evidence("passed-c4a8a4"), ["Opening hours\nhttps://example.org/"])
    same("its heading", view.words("h1"), ["Findings on Opening hours"])
    old, outcomes = pathlib.Path(folder, "home.json"), pathlib.Path(folder, "home.outcomes")
    old.write_text(page.replace('"rev":2', '"rev":1'), encoding="utf-8")
    outcomes.write_text(given, encoding="utf-8")
    refused("a page of another revision", End.INPUT, "the outcomes are of revision 2, the page is of revision 1", old, outcomes, program=VIEW)


def test_outcomes_and_report(folder: str) -> None:
    """A text report and the reply give the same rows, whatever the files are called; only the reply has the rest."""
    by_report, by_reply = View(REPORT, name="home.json.outcomes"), View(REPLY, name="home.txt")
    for what, got in (("rules", lambda view: view.ids("rule")), ("merged rules", lambda view: view.ids("merged")), ("targets", lambda view: view.ids("target")),
                      ("headings", lambda view: [view.words(tag) for tag in ("h1", "h2", "h3", "h4")]),
                      ("counts", lambda view: view.words("tr")), ("title", lambda view: view.words("title")),
                      ("rules without a target", lambda view: view.words("details")[-2])):
        same(f"the {what} of both", got(by_report), got(by_reply))
    expect("a report has no verdict, no evidence and no revision", not any(
        element.attrs.get("class") in ("verdict", "evidence") or "Revision" in element.text for element in by_report.elements if element.tag != "style"))
    expect("a report names who judged", "Judged by bob." in by_report.find("failed-b49b2e").words)
    page, given = pathlib.Path(folder, "home.json"), pathlib.Path(folder, "home.outcomes")
    page.write_text(SNAPSHOT, encoding="utf-8")
    given.write_text(REPLY, encoding="utf-8")
    with open(given, "rb") as stdin:
        code, out, err = run(page, "-", program=VIEW, stdin=stdin)
    expect("a reply from standard input", code == 0 and err == "" and b"judged by <bdi>bob</bdi>" in out, err)


NAME = "Ольга \"Оля\" O'Neill </bdi><b>&amp;</b>\nאבג \u202e"
EVIDENCE = "  heading\n\"Öffnungszeiten\" </dd><script>x</script>&amp;\t\\\n時間  \u202emarhaba مرحبا \U0001f55b\u2028\n"
SHOWN_NAME = "Ольга \"Оля\" O'Neill </bdi><b>&amp;</b> אבג ⟨U+202E⟩"
SHOWN_EVIDENCE = "  heading\n\"Öffnungszeiten\" </dd><script>x</script>&amp;\t\\\n時間  ⟨U+202E⟩marhaba مرحبا \U0001f55b⟨U+2028⟩\n"


def test_outcome_texts() -> None:
    """Quotes, line ends, markup and other alphabets in names and evidence stay texts, in either spelling of JSON."""
    given = [row("c4a8a4", 1, "cantTell", "judge-title", EVIDENCE, "passed", NAME)]
    for ascii_only in (False, True):
        view = View(reply(given, ascii_only=ascii_only))
        same("a name of many kinds", view.verdicts("passed-c4a8a4"),
             [f"Final outcome: passed, judged by {SHOWN_NAME}. By the rule alone: to judge, for the reason judge-title."])
        same("evidence of many kinds", view.evidence("passed-c4a8a4"), [SHOWN_EVIDENCE])
        same("its language is that of the node", [quote.attrs for quote in view.inside("passed-c4a8a4", "bdi")], [{}, {"lang": "en"}])
        same("elements of the texts", [element.tag for element in view.elements if element.tag in ("b", "script")], [])
    view = View(reply([row("c4a8a4", 1, "cantTell", "judge-title", "word " * 2000)]))
    same("long evidence is shown whole", view.evidence("cantTell-c4a8a4"), ["word " * 2000])


def test_unknown_outcomes() -> None:
    """Rules that silvervole/data/rules.json doesn't know are shown by their ids, with what the reply says of them."""
    view = View(reply([row("zz9998", 3, "cantTell", "see-for-yourself", "x", "passed", "ann"), row("zz9999", 3, "failed", "never-heard-of", "y")],
                      ("yy8888",)))
    same("their headings", view.words("h3"), ["Rule zz9999 1 finding", "Rule zz9998 1 finding"])
    same("what failed", (view.verdicts("failed-zz9999"), view.evidence("failed-zz9999")),
         (["Final outcome: failed. By the rule alone: failed, for the reason never-heard-of."], ["y"]))
    same("what is judged", (view.verdicts("passed-zz9998"), view.evidence("passed-zz9998")),
         (["Final outcome: passed, judged by ann. By the rule alone: to judge, for the reason see-for-yourself."], ["x"]))
    expect("one without a target", "Rule yy8888" in view.words("li"))
    same("no criterion counts them", view.words("tr")[1:], ["Under no criterion – 1 0 1 Rule zz9999 (1 failed)"])


def fault_of(text: str | bytes) -> str:
    """Why a reply is refused; the empty text where it isn't."""
    try:
        read_outcomes(text if isinstance(text, bytes) else text.encode("utf-8", "surrogatepass"), "home.outcomes")
        return ""
    except Stop as stop:
        return stop.line if stop.end is End.INPUT else f"{stop.end!r}: {stop.line}"


# Values of another form than docs/use/http.md says, for each member of an outcome and of a reply.
STRANGE: dict[str, tuple[object, ...]] = {
    "automatic": ("inapplicable", "", None, 1, ["passed"]), "by": (None, 3, ["bob"], "\ud800"),
    "digest": ("", "E3B0C44298FC1C149AFBF4C8996FB92427AE41E4649B934CA495991B7852B855", None), "evidence": (None, ["x"], 1, "\udc00"),
    "node": (0, -1, 4_294_967_296, 1.0, "1", True, None), "outcome": ("canttell", "Passed", None, {}),
    "reason": ("", "no title", "No-title", "no-title\n", None), "rule": ("", "2779A5", "2779a55", "2779a", "2779a5\n", 277905, None)}
STRANGE_TOP: dict[str, tuple[object, ...]] = {
    "inapplicable": ("", None, [1], ["73f2c"], {}), "outcomes": ({}, None, ""), "rev": (0, -1, 1.0, "1", True, None, 9_223_372_036_854_775_808)}


def test_outcome_forms() -> None:
    """Each member that is absent or of another form is named; others are passed over."""
    good = row("2779a5", 1, "failed", "no-title")
    top = {"inapplicable": [], "outcomes": [good], "rev": 1}
    same("a reply of the form", fault_of(json.dumps(top)), "")
    same("members that no page names", fault_of(json.dumps({**top, "hand": 1, "outcomes": [{**good, "note": []}]})), "")
    same("the greatest numbers", fault_of(json.dumps({**top, "rev": 9_223_372_036_854_775_807, "outcomes": [{**good, "node": 4_294_967_295}]})), "")

    def says(what: str, changed: dict[str, object], fault: str) -> None:
        same(what, fault_of(json.dumps(changed)), f"home.outcomes is no reply of the desk to outcomes: {fault}")

    for members, strange, within, subject in ((top, STRANGE_TOP, lambda changed: changed, "it"),
                                              (good, STRANGE, lambda changed: {**top, "outcomes": [row("c487ae", 3, "passed", "ok"), changed]}, "its outcome 2")):  # type: ignore[arg-type]
        same(f"the members of {subject}", sorted(members), sorted(strange))
        for name, values in strange.items():
            says(f"without {name}", within({key: value for key, value in members.items() if key != name}), f"{subject} has no member {name}")
            for value in values:
                says(f"{name} as {value!r}", within({**members, name: value}), f"{subject} has a member {name} of another form")
    says("an outcome that is a list", {**top, "outcomes": [[]]}, "its outcome 1 is no JSON object")
    says("the digest of another text", {**top, "outcomes": [{**good, "evidence": "Home"}]}, "its outcome 1 has a digest that isn't that of its evidence")
    says("an outcome twice", {**top, "outcomes": [good, good]}, "it has two outcomes of the rule 2779a5 on node 1")
    says("a rule with and without outcomes", {**top, "inapplicable": ["2779a5"]}, "it has an outcome of the rule 2779a5, and says that this rule has none")


def test_refused_outcomes(folder: str) -> None:
    """Replies that are cut, JSON of another form, refusals of the desk, and outcomes of another page."""
    data = reply([row("c4a8a4", 1, "cantTell", "judge-title", EVIDENCE, "passed", NAME)], ("73f2c2",)).encode("utf-8")
    same("a whole reply", fault_of(data), "")
    same("cuts that are taken for a whole reply", [cut for cut in range(1, len(data)) if not fault_of(data[:cut])], [])
    page, given = pathlib.Path(folder, "home.json"), pathlib.Path(folder, "home.outcomes")
    page.write_text(SNAPSHOT, encoding="utf-8")
    for what, says, content in (
            ("a reply that is cut", "no reply of the desk to outcomes: it is cut or damaged", data[:-1]),
            ("a reply that is cut within a character", "isn't in UTF-8", data[:data.index("Ольга".encode("utf-8")) + 1]),
            ("two replies", "no JSON", data + data),
            ("an empty object", "has no member inapplicable", b"{}"),
            ("the names of a page", "has no member inapplicable", b'{"names":[]}'),
            ("a snapshot", "has no member inapplicable", SNAPSHOT.encode("utf-8")),
            ("a refusal", "it says that the desk refused what was asked: NoPage", b'{"number":14,"refused":"NoPage"}'),
            ("a refusal that steers a terminal", "was asked: a b\\u001b[1m", b'{"refused":"a\\nb\\u001b[1m"}'),
            ("objects within objects", "nested too deep", b'{"a":' * 100_000),
            ("a list", "no report of the desk", b"[]"),
            ("a reply behind its head", "no report of the desk", b"HTTP/1.1 200 OK\r\n\r\n" + data),
            ("a node that the page doesn't hold", "node 999", reply([row("2779a5", 999, "failed", "no-title")]).encode("utf-8"))):
        given.write_bytes(content)
        refused(what, End.INPUT, says, page, given, program=VIEW)


def test_outcomes_page(browser: Any, folder: str) -> None:
    """The page made of a reply: its headings, what a screen reader reads of a row, its contrast, and its own audit."""
    page = pathlib.Path(folder, "home.json")
    page.write_text(SNAPSHOT, encoding="utf-8")
    with opened(browser, page, REPLY) as path:
        said = accessible(browser)
        same("the headings", [name for role, name in said if role == "heading"][:7], [
            "Findings on a page without a title", "Show", "By criterion", "Failed 2 findings", "HTML page has non-empty title 1 finding",
            "The page as a whole node 1", "Heading is descriptive 1 finding"])
        levels = browser.execute_script("return [...document.querySelectorAll('h1,h2,h3,h4')].map((heading) => Number(heading.localName[1]))")
        expect("no level of headings is left out", levels[0] == 1 and all(b <= a + 1 for a, b in zip(levels, levels[1:])), levels)
        read = " ".join(name for role, name in said if role == "StaticText")
        for words in ("Revision 7 of the page in the desk", "Final outcome: failed, judged by bob . By the rule alone: to judge, for the reason judge-heading .",
                      "Heading above none Evidence heading Opening hours"):
            expect(f"a screen reader reads {words!r}", words in " ".join(read.split()), read)
        same("evidence keeps its lines", browser.execute_script("return document.querySelector('#failed-b49b2e-5 .evidence').innerText"),
             "heading\nOpening hours")
        contrast(browser)
        self_audit(browser, path)
        axe(browser, path)
