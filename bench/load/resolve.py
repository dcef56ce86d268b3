#!/usr/bin/env python3
"""Reads a form by Python's json, numbers its elements outside instances in document order, and looks up which bind each of them names. With no
second word it only reads the bytes. It prints what the program of main.rt.txt does."""
import json
import sys

PREFIX = "xf:"
PASSED = {PREFIX + "help", PREFIX + "hint", PREFIX + "alert", PREFIX + "extension"}


def walk(node, elements):
    if node[0] in PASSED:
        return
    elements.append(node)
    if node[0] == PREFIX + "instance":
        return
    for child in node[1:]:
        if isinstance(child, list):
            walk(child, elements)


def attributes_of(node):
    return node[1] if len(node) > 1 and isinstance(node[1], dict) else {}


def main():
    with open(sys.argv[1], "rb") as file:
        text = file.read()
    print(len(text))
    if len(sys.argv) < 3:
        return
    elements = []
    walk(json.loads(text), elements)
    ids = {}
    counts = {PREFIX + "bind": 0, PREFIX + "instance": 0}
    for node in elements:
        number = 0
        if node[0] in counts:
            number = counts[node[0]]
            counts[node[0]] += 1
        name = attributes_of(node).get("id")
        if name is not None:
            ids.setdefault(name, number)
    named = [ids[attributes_of(node)["bind"]] for node in elements if "bind" in attributes_of(node)]
    print(len(elements), counts[PREFIX + "bind"], counts[PREFIX + "instance"], len(named), sum(named))


main()
