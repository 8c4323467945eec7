"""The edits that the scripts of this folder time."""


def sizes(nodes):
    """How many nodes the subtree of each has."""
    of = {node["n"]: 1 for node in nodes}
    for node in reversed(nodes):
        if node["p"] is not None:
            of[node["p"]] += of[node["n"]]
    return of


def edits(nodes):
    """An edit of each kind."""
    of = sizes(nodes)
    elements = [node["n"] for node in nodes if "tag" in node]
    texts = [node["n"] for node in nodes if "text" in node]
    body = next(node["n"] for node in nodes if node.get("tag") == "body")
    middle, text = elements[len(elements) // 2], texts[len(texts) // 2]
    inner = [n for n in elements if n not in (elements[0], body)]
    part = min(inner, key=lambda n: abs(of[n] - 100))
    return [
        ("attribute of no rule", {"op": "setAttr", "node": middle, "name": "class", "value": "bench"}),
        ("attribute", {"op": "setAttr", "node": middle, "name": "title", "value": "Bench"}),
        ("text", {"op": "setText", "node": text, "text": "Bench"}),
        ("a row put in", {"op": "insert", "parent": body, "place": 0, "rows": [{"n": 20_000, "p": None, "tag": "p"}]}),
        (f"{of[part]} nodes taken out", {"op": "remove", "node": part}),
        (f"{of[part]} nodes moved", {"op": "move", "node": part, "parent": body, "place": 0}),
    ]
