#!/usr/bin/env python3
"""Prints a tree at the limits of a forest, and behind it an expression at those of expressions.

    limits.py json    the tree as JSON, and the expression: input of refused.rt.txt
    limits.py xml     the tree as XML, and the line of the expression: input of plain.c

The tree has 65,536 nodes, elements 100 deep, a text of 65,536 bytes, and 4 MiB of texts and names. The expression has 4,096 bytes, and
its parentheses, predicates and calls are nested 64 deep; it asks for few nodes on most axes, and twice for a list of the whole tree."""
import json
import sys

from trees import node_count, xml

NODES, TEXT, ALL, DEPTH = 65536, 65536, 4194304, 100
BYTES, NESTED = 4096, 64
# What an expression with number X can stand in; each is a number again.
WRAPS = ["string-length(concat('a', X, 'é', c//@k[. = 7]))", "(number(translate(X, '0123', '3210')) + count(c//c[@k][c]/..))", "round(X div 3)",
         "(sum(c/c[@k = '3'] | c/@k | c/c/@k) + X)", "number(substring(concat(X, '9', string(c/c/ancestor::d/@id)), 1, 3))",
         "(count(c/c/c/following-sibling::* | c/c/ancestor-or-self::*[last()]) + X)", "ceiling(X * 2.5)", "(X + number(starts-with(string(X), '1')))",
         "number(normalize-space(X))", "(X mod 100 + (local-name(c/c) = 'c'))"]


def depth_of(text):
    depth = most = 0
    for letter in text:
        depth += (letter in "([") - (letter in ")]")
        most = max(most, depth)
    return most


def chain(depth):
    """Elements one in another, each with an attribute."""
    return ["c", {"k": str(depth % 10)}] + ([chain(depth - 1)] if depth > 1 else [])


def bytes_in(tree):
    if isinstance(tree, str):
        return len(tree)
    if isinstance(tree, dict):
        return sum(len(name) + len(text) for name, text in tree.items())
    return len(tree[0]) + sum(map(bytes_in, tree[1:]))


def tree():
    top = ["d", chain(DEPTH - 1), ["t", "x" * TEXT], ["w"]]
    if (NODES - node_count(top)) % 2 == 1:
        top.insert(1, {"id": "7"})
    count = (NODES - node_count(top)) // 2
    left = ALL - bytes_in(top) - count
    for number in range(count):
        top[-1].append(["i", str(number % 1000).ljust(left // count + (number < left % count))])
    return top


def expression():
    text = "@k"
    for _ in range(24):
        text = "c[%s]" % text
    text = "(count(%s) + count(//i) + string-length(/))" % text
    at = 0
    # A wrap that has X twice would double what stands in it at each turn: it takes the number alone.
    while depth_of(text) < NESTED:
        wrap = WRAPS[at % len(WRAPS)]
        at += 1
        if depth_of(wrap.replace("X", text)) > NESTED:
            wrap = "(X)"
        text = wrap.replace("X", text, 1).replace("X", "c/@k")
    while len((text + " + count(c/@k | c/c)").encode()) <= BYTES:
        text += " + count(c/@k | c/c)"
    return text + " " * (BYTES - len(text.encode()))


def main():
    top, text = tree(), expression()
    if (node_count(top), bytes_in(top), len(text.encode()), depth_of(text)) != (NODES, ALL, BYTES, NESTED):
        sys.exit("not at the limits: %d nodes, %d bytes, expression of %d bytes %d deep" % (node_count(top), bytes_in(top), len(text), depth_of(text)))
    if sys.argv[1] == "json":
        print(json.dumps(top))
        sys.stdout.write(text)
    else:
        print(xml(top))
        print("1\tlimits\t.\t" + text)


main()
