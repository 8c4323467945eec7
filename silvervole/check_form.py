"""Says whether a snapshot is well formed: its JSON, its rows and its tree.

    python3 silvervole/check_form.py FILE..

It has no code of the collector or of the desk, so that each can be held against it.
What shows findings to people reads snapshots by it. Only the address is looked at less closely than the desk does.
"""
import contextlib
import functools
import gc
import itertools
import json
import re
import sys

NODES, DEPTH, ATTRS, TEXT, WEIGHT, BYTES = 10_000, 128, 64, 65_536, 100_000, 8_388_608
GREATEST_NUMBER = 4_294_967_295
# The characters of Unicode's White_Space; Python's str.split takes four more.
WHITE = re.compile("[\t-\r \x85\xa0\u1680\u2000-\u200a\u2028\u2029\u202f\u205f\u3000]+")
HALF = re.compile("[\ud800-\udfff]")
# The attributes by which text is referred to.
REFERRING = {"id", "for", "aria-labelledby", "aria-owns"}
LETTERS = set("rvft")
LABELABLE = {"button", "meter", "output", "progress", "select", "textarea"}


class Fault(Exception):
    pass


@functools.lru_cache(maxsize=4096)
def folded(text):
    # Letters outside ASCII stay as they are.
    return text.lower() if text.isascii() else re.sub("[A-Z]", lambda found: found.group().lower(), text)


def size(text):
    return len(text) if text.isascii() else len(text.encode("utf-8"))


def is_text(value):
    # Half a surrogate pair, which JSON can spell, is no text.
    return isinstance(value, str) and (value.isascii() or not HALF.search(value))


def are_attributes(value):
    # A page may have half a million of them: sets of what they are tell it soonest.
    if not isinstance(value, list) or not {*map(type, value)} <= {list} or not {*map(len, value)} <= {2}:
        return False
    if not value:
        return True
    parts = [*itertools.chain.from_iterable(value)]
    return {*map(type, parts)} <= {str} and is_text("".join(parts)) and "" not in parts[::2]


@functools.lru_cache(maxsize=256)
def are_letters(text):
    return len(set(text)) == len(text) and set(text) <= LETTERS


def is_number(value):
    return isinstance(value, int) and not isinstance(value, bool) and 1 <= value <= GREATEST_NUMBER


def no_constant(name):
    raise Fault(f"the JSON holds {name}")


def finite(digits):
    value = float(digits)
    if value in (float("inf"), float("-inf")):
        raise Fault(f"the JSON holds {digits}")
    return value


def sharing(given):
    """The object, in which equal names of attributes are one text: a page has many attributes of few names."""
    if are_attributes(given.get("attrs")):
        given["attrs"] = [[sys.intern(name), value] for name, value in given["attrs"]]
    return given


@contextlib.contextmanager
def uncollected():
    """Looks for no garbage meanwhile: among many small objects that search takes longer than making them."""
    enabled = gc.isenabled()
    gc.disable()
    try:
        yield
    finally:
        if enabled:
            gc.enable()


def read_top(data):
    """The object that the bytes hold."""
    if len(data) > BYTES:
        raise Fault(f"{len(data)} bytes")
    try:
        with uncollected():
            top = json.loads(data.decode("utf-8"), parse_constant=no_constant, parse_float=finite, object_hook=sharing)
    except ValueError as error:
        raise Fault(f"no JSON: {error}")
    if not isinstance(top, dict):
        raise Fault("no object")
    return top


def read(top):
    """The address and the rows, each with n, p, tag or text, ns, attrs and f; and all that was given of it."""
    if not is_text(top.get("url")):
        raise Fault("url is no text")
    if not isinstance(top.get("nodes"), list):
        raise Fault("nodes is no list")
    url = top["url"]
    if size(url) > TEXT or not re.fullmatch(r"https?://[^\s/?#]+(/\S*|\?\S*|#\S*)?", url, re.IGNORECASE):
        raise Fault("url is no address of http or https")
    rows = []
    for place, given in enumerate(top["nodes"], 1):
        def bad(field):
            raise Fault(f"row {place}: {field}")
        if not isinstance(given, dict):
            bad("no object")
        if not is_number(given.get("n")):
            bad("n")
        if "p" not in given or not (given["p"] is None or is_number(given["p"])):
            bad("p")
        if ("tag" in given) == ("text" in given):
            bad("tag and text")
        if "tag" in given:
            if not is_text(given["tag"]) or given["tag"] == "":
                bad("tag")
            if given.get("ns", "html") not in ("html", "svg", "other"):
                bad("ns")
            if not are_attributes(given.get("attrs", [])):
                bad("attrs")
        elif not is_text(given["text"]):
            bad("text")
        letters = given.get("f", "rv")
        if not isinstance(letters, str) or not are_letters(letters):
            bad("f")
        rows.append({"n": given["n"], "p": given["p"], "tag": given.get("tag"), "text": given.get("text"),
                     "ns": given.get("ns", "html"), "attrs": given.get("attrs", []) if "tag" in given else [], "f": letters, "given": given})
    return url, rows


def attr(row, name):
    """The value of an attribute, or None."""
    for key, value in row["attrs"]:
        if folded(key) == name:
            return value
    return None


def tokens(value):
    return [part for part in WHITE.split(value or "") if part]


def check_tree(rows):
    if not rows:
        raise Fault("no row")
    if len(rows) > NODES:
        raise Fault(f"{len(rows)} rows")
    by_number: dict[int, dict] = {}
    depth: dict[int, int] = {}
    open_rows: list[int] = []
    referring: dict = {}
    for place, row in enumerate(rows):
        n, p = row["n"], row["p"]

        def bad(what):
            raise Fault(f"node {n}: {what}")
        if n in by_number:
            bad("its number stands twice")
        if place == 0:
            if p is not None:
                bad("the first row has a parent")
            if row["text"] is not None:
                bad("the root is a text")
        else:
            # The open rows are the row before and its ancestors.
            while open_rows and open_rows[-1] != p:
                open_rows.pop()
            if not open_rows:
                bad("its parent is neither the row before nor an ancestor of it")
            if by_number[p]["text"] is not None:
                bad("its parent is a text")
        depth[n] = 1 if place == 0 else depth[p] + 1
        if depth[n] > DEPTH:
            bad(f"depth {depth[n]}")
        attrs = row["attrs"]
        if len(attrs) > ATTRS:
            bad(f"{len(attrs)} attributes")
        texts = [row["text"] or row["tag"] or "", *itertools.chain.from_iterable(attrs)]
        # Their sum first, which is quicker.
        if size("".join(texts)) > TEXT:
            for text in texts:
                if size(text) > TEXT:
                    bad(f"a text of {size(text)} bytes")
        if attrs:
            names = [folded(name) for name, _ in attrs]
            if len(set(names)) != len(names):
                bad("an attribute stands twice")
            if not REFERRING.isdisjoint(names):
                referring[n] = {name: pair[1] for name, pair in zip(names, attrs) if name in REFERRING}
        by_number[n] = row
        open_rows.append(n)
    weight = reference_weight(rows, by_number, referring)
    if weight > WEIGHT:
        raise Fault(f"the reference weight is {weight}")
    return weight


def reference_weight(rows, by_number, referring):
    """How much text the page's references reach, counted once for each reference; `referring` has the attributes of each row that refers."""
    subtree = subtree_weights(rows)
    first_with_id: dict = {}
    labels_by_for: dict = {}
    for n, attributes in referring.items():
        if attributes.get("id"):
            first_with_id.setdefault(attributes["id"], n)
        if "for" in attributes and is_html(by_number[n], "label"):
            labels_by_for.setdefault(attributes["for"], []).append(n)
    total = 0
    for attributes in referring.values():
        for name in ("aria-labelledby", "aria-owns"):
            if name in attributes:
                total += sum(subtree[first_with_id[token]] for token in tokens(attributes[name]) if token in first_with_id)
    labelled_inside = set()
    has_labels = any(row["tag"] is not None and is_html(row, "label") for row in rows)
    for row in rows if has_labels else ():
        if not is_labelable(row):
            continue
        identity = referring.get(row["n"], {}).get("id")
        if identity and first_with_id[identity] == row["n"]:
            total += sum(subtree[label] for label in labels_by_for.get(identity, ()))
        label = by_number[row["p"]] if row["p"] is not None else None
        while label is not None and not is_html(label, "label"):
            label = by_number[label["p"]] if label["p"] is not None else None
        if label is not None and label["n"] not in labelled_inside:
            # Rows come in document order, so this is the label's first labelable.
            labelled_inside.add(label["n"])
            if "for" not in referring.get(label["n"], {}):
                total += subtree[label["n"]]
    return total


def subtree_weights(rows):
    """The weight of each row with all below it."""
    subtree: dict[int, int] = {}
    for row in reversed(rows):
        n, p = row["n"], row["p"]
        length = size(row["text"] or "") if not row["attrs"] else size("".join([value for _, value in row["attrs"]]))
        subtree[n] = subtree.get(n, 0) + 1 + length // 64
        if p is not None:
            subtree[p] = subtree.get(p, 0) + subtree[n]
    return subtree


def is_html(row, tag):
    return row["ns"] == "html" and row["tag"] is not None and folded(row["tag"]) == tag


def is_labelable(row):
    if row["ns"] != "html" or row["tag"] is None:
        return False
    tag = folded(row["tag"])
    return tag in LABELABLE or (tag == "input" and folded(attr(row, "type") or "") != "hidden")


def check(data):
    """The rows of a well-formed snapshot; raises Fault for any other."""
    _, rows = read(read_top(data))
    check_tree(rows)
    return rows


if __name__ == "__main__":
    status = 0
    for path in sys.argv[1:]:
        try:
            with open(path, "rb") as file:
                print(f"{path}: well formed, {len(check(file.read()))} nodes")
        except Fault as fault:
            print(f"{path}: {fault}")
            status = 1
    sys.exit(status)
