#!/usr/bin/env python3
"""Writes cases of expressions as literal trees, one a line, for cases.rt.txt.

Usage: cases.py FILE. A line of FILE is a JSON object: a tree, with `tree`, `root` and `prefixes`, or a case of a tree, with `tree`,
`context` (null where it is the document element), `expr` and `want`."""
import json
import sys

trees, cases = {}, {}
for line in open(sys.argv[1], encoding="utf-8"):
    row = json.loads(line)
    if "root" in row:
        trees[row["tree"]] = row
    else:
        cases.setdefault(row["tree"], []).append(row)
for number, row in trees.items():
    spaces = {"xmlns:" + prefix: uri for prefix, uri in row["prefixes"].items()}
    print(json.dumps(["tree", spaces, row["root"]]))
    for case in cases.get(number, []):
        print(json.dumps(["case", {"context": case["context"] or "", "expr": case["expr"], "want": case["want"]}]))
