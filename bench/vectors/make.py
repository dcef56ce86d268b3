#!/usr/bin/env python3
"""Writes the cases that come from Python alone behind the worked ones of the sheet of xf_test_vectors.

The rules are written here anew, over decimal, datetime, json and code points; nothing of the crates is read or run. The cases are the
same each time. Give it no argument.
"""

import importlib
import json
import pathlib
import sys

SHEET = pathlib.Path(__file__).resolve().parents[2] / "crates" / "xf_test_vectors" / "stdin"
MARK = "# ---- made by bench/vectors/make.py"
CRATES = {"num": "xf_num", "types": "xf_types", "dates": "xf_dates", "funcs": "xf_funcs", "path": "xf_path", "json": "xf_json", "name":
          "xf_name", "table": "xf_table", "line": "xf_line", "graph": "xf_graph", "schema": "xf_schema"}


def main():
    sys.dont_write_bytecode = True
    sys.path.insert(0, str(pathlib.Path(__file__).parent))
    worked = SHEET.read_text(encoding="utf-8").split(MARK)[0]
    lines = [worked + MARK]
    for cases, crate in CRATES.items():
        for case in importlib.import_module("of_" + cases).cases():
            lines.append(json.dumps([crate, *case], ensure_ascii=False, separators=(",", ":")))
    SHEET.write_text("\n".join(lines) + "\n", encoding="utf-8")


main()
