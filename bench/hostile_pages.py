"""Pages of bench/hostile: each within every limit of a snapshot, and made to take long."""
from pages import Page

# A list is a little shorter than the longest value, and nodes stand a little higher than the greatest depth.
LIST = 65_000
HEIGHT = 120


def begun(lang="en"):
    """A page with its head and its body, and the number of that."""
    page = Page()
    html = page.element(None, "html", [("lang", lang)])
    page.words(page.element(page.element(html, "head"), "title"), "Page")
    return page, page.element(html, "body")


def nested(page, parent, tags, height, attrs=(), facts=None):
    """So many elements, each in the one before, of these tags in turn; the number of the last."""
    for level in range(height):
        parent = page.element(parent, tags[level % len(tags)], attrs, facts)
    return parent


def texts(page, parent, count, length):
    """So many texts of so many bytes."""
    for _ in range(count):
        page.words(parent, "a" * length)


def repeated(word, length=LIST):
    """A list of one word, of about so many bytes."""
    return " ".join([word] * (length // (len(word) + 1)))


# ---- names

def selects(page, body):
    """A div of nested selects, each in the chosen option of the one above, around a text."""
    inner = page.element(body, "div", [("id", "a")])
    for _ in range(17):
        inner = page.element(page.element(inner, "select"), "option", [("selected", "")])
    page.words(inner, "b" * 61)


def one_button():
    page, body = begun()
    selects(page, body)
    page.element(body, "button", [("aria-labelledby", " ".join("a" * 2_700))], "rvft")
    return page


def many_buttons():
    page, body = begun()
    selects(page, body)
    for _ in range(2_700):
        page.element(body, "button", [("aria-labelledby", "a")], "rvft")
    return page


def long_texts_in(tags, height, count, length, attrs=()):
    """Nested elements around so many texts at the bottom."""
    page, body = begun()
    texts(page, nested(page, body, tags, height, attrs), count, length)
    return page


def figures():
    page, inner = begun()
    for _ in range(60):
        figure = page.element(inner, "figure", [("role", "img")])
        inner = page.element(figure, "figcaption")
    texts(page, inner, 9_000, 600)
    return page


def nested_selects():
    return long_texts_in(["select", "option"], 120, 9_800, 100, [("selected", "")])


def fieldsets():
    page, inner = begun()
    for _ in range(60):
        inner = page.element(page.element(inner, "fieldset"), "legend")
    texts(page, inner, 9_800, 100)
    return page


def labels():
    """Nested labels around an input each, and texts at the bottom."""
    page, inner = begun()
    for _ in range(HEIGHT):
        inner = page.element(inner, "label")
        page.element(inner, "input", [("type", "text")], "rvft")
    texts(page, inner, 6, 6_000)
    return page


def details():
    page, inner = begun()
    for _ in range(60):
        inner = page.element(page.element(inner, "details"), "summary", (), "rvft")
    texts(page, inner, 9_800, 100)
    return page


def many_headings():
    page, body = begun()
    for _ in range(4_950):
        page.words(page.element(body, "h2"), "a" * 1_500)
    return page


# ---- lists in attributes

def listing(attribute, value, tag="button", count=120, attrs=()):
    """So many elements with a list in an attribute, and an element of id a."""
    page, body = begun()
    page.element(body, "p", [("id", "a")])
    for _ in range(count):
        page.element(body, tag, [*attrs, (attribute, value)], "rvft")
    return page


def found_words():
    """As many references as the greatest weight allows, to one empty element."""
    return listing("aria-labelledby", " ".join("a" * 32_000), count=3)


def long_text(page, body):
    page.words(page.element(body, "p", [("id", "t")]), "a" * 65_536)


def naming_a_long_text():
    """One button with as many references to the longest text as the greatest weight allows."""
    page, body = begun()
    page.element(body, "button", [("aria-labelledby", repeated("t", 2 * 96))], "rvft")
    long_text(page, body)
    return page


def children_naming_a_long_text():
    """A button whose children have as many references to the longest text as the greatest weight allows."""
    page, body = begun()
    button = page.element(body, "button", (), "rvft")
    for _ in range(96):
        page.element(button, "span", [("aria-labelledby", "t")])
    long_text(page, body)
    return page


# ---- aria-owns

def owning_one_text():
    """Buttons that all own one paragraph, whose text is as long as the greatest weight allows."""
    page, body = begun()
    page.words(page.element(body, "p", [("id", "a")]), "a" * 639)
    for _ in range(9_000):
        page.element(body, "button", [("aria-owns", "a")], "rvft")
    return page


def owning_one_list():
    """Lists that all own one list, with as many entries as the greatest weight allows."""
    page, body = begun()
    items = page.element(body, "ul", [("id", "a")])
    for _ in range(5):
        page.words(page.element(items, "li"), "a")
    for _ in range(9_000):
        page.element(body, "div", [("role", "list"), ("aria-owns", "a")])
    return page


def owning_each_other(tag, attrs=()):
    """Elements of which each owns the one before it and the one after it."""
    page, body = begun()
    names = ids(HEIGHT)
    for before, name, after in zip(names[-1:] + names, names, names[1:] + names):
        node = page.element(body, tag, [*attrs, ("id", name), ("aria-owns", f"{before} {after}")], "rvft")
        page.words(node, "a")
    return page


def owning_long_texts():
    """Nested buttons, of which each owns a paragraph beside them."""
    page, inner = begun()
    for name in ids(HEIGHT):
        page.words(page.element(inner, "p", [("id", name)]), "a" * 10_000)
    for name in ids(HEIGHT):
        inner = page.element(inner, "button", [("aria-owns", name)], "rvft")
    return page


def owning_by(words, names):
    """A list and a button that own the elements of these ids, each by a list of words."""
    page, body = begun()
    for name in names:
        page.element(body, "img", [("id", name), ("alt", "a")])
    page.element(body, "div", [("role", "list"), ("aria-owns", words)])
    page.element(body, "button", [("aria-owns", words)], "rvft")
    return page


def owning_one_group():
    """Trees that all own one group, with as many items as the greatest weight allows."""
    page, body = begun()
    owned = page.element(body, "div", [("id", "a"), ("role", "group")])
    for _ in range(9):
        page.element(owned, "p", [("role", "treeitem")])
    for _ in range(9_000):
        page.element(body, "div", [("role", "tree"), ("aria-owns", "a")])
    return page


def owning_below(words):
    """A list below many elements, with as many words as its aria-owns can have, and elements that they find."""
    page, inner = begun()
    inner = nested(page, inner, ["div"], HEIGHT)
    page.element(inner, "div", [("role", "list"), ("aria-owns", " ".join(words))])
    for word in dict.fromkeys(words):
        page.element(inner, "p", [("id", word), ("role", "listitem")])
    return page


def below_long_roles():
    """Nested tables whose roles are long lists of unknown words, and leaves below them."""
    page, inner = begun()
    for _ in range(60):
        inner = page.element(page.element(inner, "table", [("role", repeated("x"))]), "caption")
    for _ in range(9_000):
        page.element(inner, "a", [("href", "#")], "rvft")
    return page


def below_long_roles_of_parents():
    """Nested elements whose roles are long lists of unknown words, and leaves below them."""
    page, body = begun()
    inner = nested(page, body, ["div"], 110, [("role", repeated("x"))])
    for _ in range(9_000):
        page.element(inner, "button", (), "rvft")
    return page


def items_below_long_roles():
    """Nested elements whose roles are long lists of unknown words, and list items below them."""
    page, body = begun()
    inner = nested(page, body, ["div"], 110, [("role", repeated("x"))])
    for _ in range(9_000):
        page.element(inner, "div", [("role", "listitem")])
    return page


def viewports():
    page = Page()
    html = page.element(None, "html", [("lang", "en")])
    head = page.element(html, "head")
    for _ in range(120):
        page.element(head, "meta", [("name", "viewport"), ("content", ",".join(["maximum-scale=1"] * 4_050))])
    return page


def aria_everywhere():
    """Elements with as many attributes as may be, each of a name that rules look at."""
    page, body = begun()
    names = [f"aria-x{number}" for number in range(64)]
    for _ in range(6_000):
        page.element(body, "p", [(name, "") for name in names])
    return page


def languages():
    page, body = begun()
    inner = nested(page, body, ["div"], HEIGHT, [("lang", "de")])
    for _ in range(9_000):
        page.words(inner, " " * 800)
    return page


def hidden():
    page, body = begun()
    inner = nested(page, body, ["div"], HEIGHT, [("aria-hidden", "true")])
    for _ in range(9_800):
        page.element(inner, "button", (), "rvft")
    return page


def options():
    page, body = begun()
    box = page.element(body, "div", [("role", "listbox")])
    inner = nested(page, box, ["div"], HEIGHT, [("role", "group")])
    for _ in range(9_800):
        page.element(inner, "div", [("role", "option")])
    return page


# ---- labels in names

def labelled_buttons(label, count, length, text="a"):
    """120 nested buttons, each with a label of its own that ends in its number, around so many texts."""
    page, inner = begun()
    for number in range(HEIGHT):
        inner = page.element(inner, "button", [("aria-label", f"{label} {number}")], "rvft")
    for _ in range(count):
        page.words(inner, (text * (length // len(text) + 1))[:length])
    return page


def buttons_and_texts(label, text):
    """Buttons with a label of 32,000 bytes and a text as long, each of its own."""
    page, body = begun()
    for number in range(HEIGHT):
        button = page.element(body, "button", [("aria-label", f"{label} {number}")], "rvft")
        page.words(button, text)
    return page


def named_by_one_text():
    """Buttons that one long text names, and that show long texts without a word of it."""
    page, body = begun()
    page.words(page.element(body, "p", [("id", "t")]), repeated("a"))
    for number in range(90):
        page.words(page.element(body, "button", [("aria-labelledby", "t")], "rvft"), repeated(f"b{number}"))
    return page


# ---- roles

def roles_in_turn():
    """A chain of elements with roles, and leaves of which each has to stand in one."""
    page, body = begun()
    roles = ["tree", "group", "none", "treeitem", "generic", "presentation"]
    inner = body
    for level in range(HEIGHT):
        inner = page.element(inner, "div", [("role", roles[level % len(roles)])])
    for _ in range(9_000):
        page.element(inner, "div", [("role", "row")])
    return page


def passed_roles():
    """Rows below groups and row groups, none of which counts for a row, so that each looks to the top."""
    page, body = begun()
    inner = nested(page, page.element(body, "div", [("role", "rowgroup")]), ["div"], HEIGHT - 1, [("role", "group")])
    for _ in range(9_000):
        page.element(inner, "div", [("role", "row")])
    return page


def decorative_words():
    """Elements whose roles are none behind long lists of unknown words, with a global attribute each."""
    page, body = begun()
    for _ in range(HEIGHT):
        page.element(body, "div", [("role", f"{repeated('x')} none"), ("aria-label", "a")], "rvft")
    return page


def buttons_in_buttons():
    """Nested buttons around as many as there is room for."""
    page, body = begun()
    inner = nested(page, body, ["button"], HEIGHT, (), "rvft")
    for _ in range(9_800):
        page.element(inner, "button", (), "rvft")
    return page


def states_everywhere():
    """Elements with each state that only some roles have."""
    page, body = begun()
    states = [(f"aria-{name}", "true") for name in (
        "checked", "expanded", "level", "modal", "multiline", "placeholder", "multiselectable", "pressed", "selected", "sort")]
    for _ in range(9_000):
        page.element(body, "div", [("role", "row"), *states])
    return page


# ---- tables

def table_of(rows, of_row):
    """A page of one table: of_row adds the cells of a row, given its number."""
    page, body = begun()
    parent = page.element(page.element(body, "table"), "tbody")
    for row in range(rows):
        of_row(page, page.element(parent, "tr"), row)
    return page


def cells(tag, count, *attrs):
    """Adds so many cells of one kind to each row."""
    def of_row(page, line, _row):
        for _ in range(count):
            page.element(line, tag, attrs)
    return of_row


def headers_below():
    """Cells, and below them headers of columns, which head none."""
    def of_row(page, line, row):
        for _ in range(98):
            page.element(line, "td" if row < 50 else "th", [("scope", "col")])
    return table_of(100, of_row)


def beside_a_tall_cell():
    """A tall cell at the end of the first row, and headers of columns below which head none."""
    def of_row(page, line, row):
        for _ in range(98):
            page.element(line, "th", [("scope", "col")])
        if row == 0:
            page.element(line, "td", [("rowspan", "0")])
    return table_of(100, of_row)


def tall_cells():
    """Tall cells, each with a header of a column before it."""
    def of_row(page, line, _row):
        page.element(line, "th", [("scope", "col"), ("rowspan", "65534")])
        page.element(line, "td", [("rowspan", "65534")])
    return table_of(300, of_row)


def many_attributes():
    """Headers with as many attributes as may be, whose names differ from that of a span at their ends."""
    names = [f"{word}{letter}" for word in ("colspa", "rowspa") for letter in "0123456789abcdefghijklmopqrst"]
    return table_of(90, cells("th", 90, *((name, "") for name in names)))


def group_each():
    """A row group for each header."""
    page, body = begun()
    table = page.element(body, "table")
    for _ in range(3_300):
        page.element(page.element(page.element(table, "tbody"), "tr"), "th", [("scope", "col")])
    return page


def row_each():
    """A row for each header, and all rows in one group."""
    return table_of(4_990, cells("th", 1, ("scope", "row")))


def nested_tables():
    """Tables, each in a cell of the one above, with headers that head none."""
    page, inner = begun()
    for _ in range(40):
        line = page.element(page.element(inner, "table"), "tr")
        for _ in range(240):
            page.element(line, "th", [("scope", "col")])
        inner = page.element(line, "td")
    return page


def referring(words, count, before=(), after=(), height=0):
    """Cells with a list in `headers`; before the table elements with ids, in it further cells with ids, whose ids
    may stand deep below a cell."""
    page, body = begun()
    for name in before:
        page.element(body, "p", [("id", name)])
    line = page.element(page.element(body, "table"), "tr")
    for _ in range(count):
        page.element(line, "td", [("headers", words)])
    deep = nested(page, page.element(line, "td"), ["div"], height) if height else line
    for name in after:
        page.element(deep, "th", [("id", name)])
    return page


def unnamed_headers():
    """Headers with ids, and cells with lists of other words."""
    page, body = begun()
    line = page.element(page.element(body, "table"), "tr")
    for _ in range(4_900):
        page.element(line, "td", [("headers", repeated("x", 1_500))])
    for number in range(4_900):
        page.element(line, "th", [("id", f"h{number}")])
    return page


def ids(count):
    return [f"i{number}" for number in range(count)]


# ---- all of them

# A page, its limit in seconds, and what it is. Memory has one limit for all.
PAGES = [
    (one_button, 2, "a button that names 17 nested selects 2,700 times"),
    (many_buttons, 2, "2,700 buttons that name 17 nested selects"),
    (lambda: long_texts_in(["a"], 120, 120, 65_000, [("href", "#")]), 6, "120 nested links, 120 texts of 65,000 bytes"),
    (lambda: long_texts_in(["h2"], 120, 9_000, 800), 8, "120 nested headings, 9,000 texts of 800 bytes"),
    (figures, 4, "60 nested figures, 9,000 texts of 600 bytes"),
    (lambda: table_of(1, cells("th", 9_990)), 2, "one row of 9,990 headers"),
    (lambda: table_of(100, cells("th", 91, ("colspan", "1000"))), 2, "100 rows of 91 headers of 1,000 columns"),
    # tables
    (lambda: table_of(90, cells("th", 109, ("scope", "col"))), 2, "90 rows of 109 headers of columns"),
    (headers_below, 2, "50 rows of headers below 50 rows of cells"),
    (beside_a_tall_cell, 2, "100 rows of headers beside one tall cell"),
    (tall_cells, 2, "300 rows of a tall header and a tall cell"),
    (lambda: table_of(100, cells("th", 10, ("rowspan", "65534"))), 2, "100 rows of 10 headers of 65,534 rows"),
    (many_attributes, 2, "90 rows of 90 headers of 58 attributes"),
    (group_each, 2, "3,300 row groups of one header"),
    (row_each, 2, "4,990 rows of one header"),
    (nested_tables, 2, "40 nested tables of 240 headers"),
    (lambda: referring(repeated("a"), 120, after="a"), 2, "120 cells that name a header 32,500 times"),
    (lambda: referring(repeated("a"), 120, "a", "a"), 2, "the same, where a paragraph has its id too"),
    (lambda: referring(repeated("a"), 120, (), "a", 120), 2, "the same, where it is 120 elements deep"),
    (lambda: referring(" ".join(ids(4_000)), 300, ids(4_000), ids(4_000)), 2, "300 cells that name 4,000 headers"),
    (unnamed_headers, 2, "4,900 cells with long headers, 4,900 headers"),
    # lists
    (found_words, 2, "aria-labelledby, 32,000 words found"),
    (naming_a_long_text, 2, "a button that names a text of 65,536 bytes 96 times"),
    (children_naming_a_long_text, 2, "a button with 96 children that each name such a text"),
    (lambda: listing("aria-labelledby", repeated("x")), 2, "aria-labelledby, 120 long lists, none found"),
    (lambda: listing("aria-describedby", repeated("x")), 2, "aria-describedby, 120 long lists, none found"),
    (lambda: listing("aria-owns", repeated("x")), 2, "aria-owns, 120 long lists, none found"),
    (lambda: listing("aria-flowto", repeated("x")), 2, "aria-flowto, 120 long lists, none found"),
    (lambda: listing("aria-controls", repeated("a")), 2, "aria-controls, 120 long lists, all found"),
    (lambda: listing("aria-relevant", repeated("all")), 2, "aria-relevant, 120 long lists"),
    (lambda: listing("autocomplete", repeated("x"), "input"), 2, "autocomplete, 120 long lists"),
    (lambda: listing("role", repeated("x")), 2, "role, 120 long lists of unknown words"),
    (below_long_roles, 2, "9,000 links below 60 tables with such roles"),
    (below_long_roles_of_parents, 2, "9,000 buttons below 110 elements with such roles"),
    (viewports, 2, "120 viewports of 4,050 keys"),
    (aria_everywhere, 2, "6,000 elements of 64 attributes"),
    # aria-owns
    (owning_one_text, 2, "9,000 buttons that own one text"),
    (owning_one_list, 2, "9,000 lists that own one list"),
    (lambda: owning_each_other("button"), 2, "a chain of 120 buttons that own each other"),
    (lambda: owning_each_other("div", [("role", "list")]), 2, "a chain of 120 lists that own each other"),
    (owning_long_texts, 2, "120 nested buttons, each owning a text of 10,000 bytes"),
    (lambda: owning_by(" ".join("a" * 32_000), "a"), 2, "aria-owns, 32,000 words, one element"),
    (lambda: owning_by(" ".join(ids(9_500)), ids(9_500)), 2, "aria-owns, 9,500 words, 9,500 elements"),
    (lambda: owning_by(" ".join((ids(90) * 200)[:16_500]), ids(90)), 2, "aria-owns, 16,500 words, 90 elements"),
    (owning_one_group, 2, "9,000 trees that own one group"),
    (lambda: owning_below(["a"] * 32_000), 2, "a list 120 elements deep that owns one by 32,000 words"),
    (lambda: owning_below(ids(9_800)), 2, "a list 120 elements deep that owns 9,800"),
    # nesting
    (fieldsets, 2, "60 nested fieldsets with legends, 9,800 texts"),
    (labels, 2, "120 nested labels with inputs, 6 texts"),
    (details, 2, "60 nested details with summaries, 9,800 texts"),
    (nested_selects, 2, "60 nested selects, 9,800 texts"),
    (lambda: long_texts_in(["ul", "li"], 120, 9_800, 100), 2, "60 nested lists, 9,800 texts"),
    (lambda: long_texts_in(["button"], 120, 9_800, 100), 2, "120 nested buttons, 9,800 texts"),
    (languages, 2, "120 nested elements of a language, blank texts"),
    (hidden, 2, "120 nested hidden elements, 9,800 buttons"),
    (options, 2, "a listbox of 120 nested groups, 9,800 options"),
    (many_headings, 2, "4,950 headings of 1,500 bytes"),
    # labels in names
    (lambda: labelled_buttons("a", 1, 65_536, "b "), 2, "120 nested buttons of other labels, one text of 65,536 bytes"),
    (lambda: labelled_buttons(repeated("c"), 1, 65_536, "b "), 2, "the same, with labels of 65,000 bytes"),
    (lambda: labelled_buttons("b " + "a" * LIST, 1, 32_000, "b " + "a" * 31_997 + "b"), 2, "the same, with labels that nearly have the text"),
    (lambda: buttons_and_texts(repeated("ab", 32_000), repeated("ba", 32_000)), 2, "120 buttons with labels and texts of 32,000 bytes"),
    (named_by_one_text, 2, "90 buttons of long texts that one long text names"),
    (lambda: labelled_buttons("a", 9_000, 600, "b "), 8, "120 nested buttons of other labels, 9,000 texts of 600 bytes"),
    # roles
    (items_below_long_roles, 2, "9,000 list items below 110 elements with long roles"),
    (roles_in_turn, 2, "9,000 rows below 120 elements with roles"),
    (passed_roles, 2, "9,000 rows below 120 elements that don't count"),
    (decorative_words, 2, "120 long roles that end in none"),
    (buttons_in_buttons, 2, "120 nested buttons, 9,800 buttons in them"),
    (states_everywhere, 2, "9,000 rows with ten states"),
]
