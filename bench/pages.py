"""How the scripts of this folder make pages: rows in document order, sent as a snapshot."""
import json

WORDS = ("opening hours of the reading room change with the season and the lending desk closes "
         "half an hour before the house does so that every book finds its way back to its shelf ")


class Page:
    """A page that grows in document order."""

    def __init__(self):
        self.rows = []

    def element(self, parent, tag, attrs=(), facts=None):
        row = {"n": len(self.rows) + 1, "p": parent, "tag": tag}
        if attrs:
            row["attrs"] = [list(pair) for pair in attrs]
        return self.add(row, facts)

    def text(self, parent, length, facts=None):
        """A text of so many bytes, or fewer where it would end in a space."""
        start = len(self.rows) * 7 % len(WORDS)
        words = (WORDS[start:] + WORDS * (length // len(WORDS) + 1))[:length]
        return self.words(parent, words.strip() or "x", facts)

    def words(self, parent, words, facts=None):
        return self.add({"n": len(self.rows) + 1, "p": parent, "text": words}, facts)

    def add(self, row, facts):
        if facts is not None:
            row["f"] = facts
        self.rows.append(row)
        return row["n"]

    def sent(self):
        """The page as a snapshot."""
        return json.dumps({"url": "https://example.org/", "nodes": self.rows}, separators=(",", ":")).encode()


def section(page, main, number, length):
    """A section of 20 rows: a heading, paragraphs with a link, an image, and a list."""
    part = page.element(main, "section", [("id", f"s{number}")])
    page.text(page.element(part, "h2", [("class", "title")]), 60)
    for _ in range(3):
        paragraph = page.element(part, "p")
        page.text(paragraph, length)
        link = page.element(paragraph, "a", [("href", f"/page/{number}"), ("class", "more")], "rvft")
        page.text(link, 40)
    page.element(part, "img", [("src", f"/image/{number}.png"), ("alt", WORDS[:80])])
    items = page.element(part, "ul")
    item = page.element(items, "li")
    page.text(item, length)


def chapter(page, main, number, length):
    """A chapter of 57 rows as documentation has them: a heading, a list of links, a table of six rows."""
    part = page.element(main, "section", [("id", f"c{number}")])
    page.text(page.element(part, "h3"), length)
    items = page.element(part, "ul")
    for place in range(4):
        link = page.element(page.element(items, "li"), "a", [("href", f"#i{number}-{place}")], "rvft")
        page.text(link, length)
    table = page.element(page.element(part, "table"), "tbody")
    head = page.element(table, "tr")
    for _ in range(3):
        page.text(page.element(head, "th", [("scope", "col")]), length)
    for place in range(4):
        line = page.element(table, "tr")
        page.text(page.element(page.element(line, "th", [("scope", "row")]), "code"), length)
        for _ in range(2):
            page.text(page.element(line, "td"), length)


def begun():
    """A page with its head and its main part, and the number of that part."""
    page = Page()
    html = page.element(None, "html", [("lang", "en-GB")])
    head = page.element(html, "head", facts="")
    page.text(page.element(head, "title", facts=""), 40, "")
    body = page.element(html, "body")
    return page, page.element(body, "main", [("id", "main")])


def made_of(part, rows, nodes, length):
    """A snapshot of so many nodes: parts of so many rows each, with texts of a length, and rules below them."""
    page, main = begun()
    number = 0
    while len(page.rows) + rows <= nodes:
        number += 1
        part(page, main, number, length)
    while len(page.rows) < nodes:
        page.element(main, "hr")
    return page.sent()


def long_texts(nodes, length=3_300):
    """A page in the shape of a real one: sections, with texts of some thousand bytes."""
    return made_of(section, 20, nodes, length)


def short_texts(nodes):
    """A page in the shape of documentation: chapters, with short texts, some 75 bytes a node."""
    return made_of(chapter, 57, nodes, 24)
