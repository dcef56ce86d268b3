#!/usr/bin/env python3
"""Prints the trees over which expressions are measured, one a line, as JSON for the program of speed.rt.txt or as XML for that of plain.c.

    trees.py json|xml            an order of 21 nodes, a list of 197, a sheet of 621 and a book of 1,867
    trees.py json|xml items N    N items, each with a number in it, and a total behind them
    trees.py json|xml rows N     a sheet of about N nodes: rows of an attribute and three cells

Elements, attributes and texts count as nodes. The numbers are such that binary and decimal arithmetic agree."""
import json
import sys
from xml.sax.saxutils import escape, quoteattr

SPACES = {"xmlns:p": "urn:p", "xmlns:q": "urn:q"}
WORDS = ["red", "green blue", " two  words ", "née", "x-1", "Straße", "12", "abcabc"]


def order():
    def item(number, quantity, price):
        return ["item", {"n": number}, ["qty", quantity], ["price", price]]

    return ["order", {"id": "A7"}, ["name", "Ann Lee"], item("1", "2", "3.5"), item("2", "10", "0.25"), ["note", "  two   words "], ["paid", "false"],
            ["total"]]


def entries():
    def entry(number):
        return ["p:entry", {"n": str(number), "q:k": "v%d" % (number % 5)}, ["q:a", str(number * 7 % 13)], ["b", WORDS[number % 8]]]

    return ["p:list"] + [entry(number) for number in range(1, 29)]


def row(number):
    return ["row", {"k": "k%d" % (number % 10)}, ["a", str(number * 7 % 101)], ["b", "%d.%s" % (number % 40, ["25", "5", "75"][number % 3])]]


def sheet():
    return ["sheet"] + [["group", {"id": "g%d" % group}] + [row(group * 10 + number) for number in range(10)] for group in range(10)]


def book():
    def section(number):
        return ["section", {"id": "s%d" % number}, ["title", "On " + WORDS[number % 8]],
                ["p", "Text %d with " % number, ["em", WORDS[number * 3 % 8]], " in it."]]

    def chapter(number):
        return ["chapter", {"n": str(number)}, ["title", "Chapter %d" % number]] + [section(number * 6 + at) for at in range(6)]

    return ["book", ["title", "A book"]] + [["part", {"n": str(part)}] + [chapter(part * 8 + at) for at in range(8)] for part in range(4)]


def items(count):
    return ["list"] + [["item", ["sum", "%d.%02d" % (number % 97, number % 4 * 25)]] for number in range(count)] + [["total"]]


def rows(count):
    """A row is an attribute, three elements with their texts and itself."""
    def wide(number):
        return ["row", {"k": "k%d" % number}, ["a", str(number * 7 % 101)], ["b", "word %d" % number], ["c", "%d.5" % (number % 40)]]

    return ["sheet"] + [wide(number) for number in range((count - 1) // 8)]


def node_count(tree):
    if isinstance(tree, str):
        return 1
    return 1 + sum(len([name for name in part if not name.startswith("xmlns")]) if isinstance(part, dict) else node_count(part) for part in tree[1:])


def xml(tree):
    if isinstance(tree, str):
        return escape(tree)
    attributes = "".join(" %s=%s" % (name, quoteattr(text)) for part in tree[1:] if isinstance(part, dict) for name, text in part.items())
    content = "".join(xml(part) for part in tree[1:] if not isinstance(part, dict))
    return "<%s%s>%s</%s>" % (tree[0], attributes, content, tree[0])


def declared(tree):
    """The tree with the namespaces at its top, and attributes in the order of their names."""
    own = tree[1] if isinstance(tree[1], dict) else {}
    return [tree[0], dict(SPACES, **own)] + tree[2 if isinstance(tree[1], dict) else 1:]


def main():
    wanted = sys.argv[2:]
    if not wanted:
        trees = [order(), entries(), sheet(), book()]
    else:
        trees = [{"items": items, "rows": rows}[wanted[0]](int(wanted[1]))]
    for tree in trees:
        print(node_count(tree), file=sys.stderr)
        print(json.dumps(declared(tree), ensure_ascii=False) if sys.argv[1] == "json" else xml(declared(tree)))


if __name__ == "__main__":
    main()
