#!/usr/bin/env python3
"""Writes a form of so many parts of 128 KiB each to standard output: of 8 parts, 1 MiB with 10,000 binds, controls and labels, data of 20,000
nodes, and 4,096 ids.

    bench/load/make.py PARTS"""
import json
import sys

PART = 131072
# Of one part.
BINDS = CONTROLS = 512
LABELS = 226
ROWS = 416
# A row is of six nodes; what is missing to 2,500 stands behind the rows.
NOTES = 2
CONTROL_KINDS = ["input", "secret", "textarea", "output"]


def bind(number, rows):
    """Selects a node of a row, and calculates it or says what holds of it."""
    row = 1 + number % rows
    attributes = {"id": f"b{number}", "nodeset": f"row[{row}]/sum", "calculate": "../quantity * ../price"}
    if number % 4 == 1:
        attributes = {"id": f"b{number}", "nodeset": f"row[{row}]/price", "type": "decimal", "constraint": ". >= 0"}
    if number % 4 == 2:
        attributes = {"id": f"b{number}", "nodeset": f"row[{row}]/quantity", "required": "true()"}
    if number % 4 == 3:
        attributes = {"id": f"b{number}", "nodeset": f"row[{row}]", "relevant": "price > 1 or quantity > 2"}
    return ["xf:bind", attributes]


def control(number, rows, binds, label):
    """Names a bind, or selects a node itself."""
    kind = CONTROL_KINDS[number % 4]
    attributes = {"bind": f"b{number * 7 % binds}"} if number % 8 < 6 else {"ref": f"row[{1 + number % rows}]/quantity"}
    return [f"xf:{kind}", attributes] + ([["xf:label", label]] if label else [])


def made(parts, letters):
    binds, controls, rows = BINDS * parts, CONTROLS * parts, ROWS * parts
    data = [["row", ["quantity", str(row % 9)], ["price", f"{row % 50}.25"], ["sum"]] for row in range(rows)]
    data += [["note", "x"] for _ in range(NOTES * parts - 1)] + [["note"]]
    model = ["xf:model", ["xf:instance", ["order"] + data]]
    model += [bind(number, rows) for number in range(binds)]
    labels = LABELS * parts
    form = ["form", {"xmlns:xf": "http://www.w3.org/2002/xforms"}, model]
    for number in range(controls):
        # Some of the labels are longer, so that the form has its size.
        label = "What is asked " + "n" * (letters // labels) if number < labels else ""
        form.append(control(number, rows, binds, label))
    return json.dumps(form, separators=(",", ":"))


def main():
    parts = int(sys.argv[1])
    missing = PART * parts - len(made(parts, 0))
    assert missing >= 0
    text = made(parts, missing)
    # White space at the end is no part of it.
    sys.stdout.write(text + "\n" * (PART * parts - len(text)))


main()
