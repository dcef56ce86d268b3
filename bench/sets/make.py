"""Writes into a folder form.json, a form of so many rows with an input each, and events, 1,000 lines that each set a quantity.

Usage: make.py FOLDER ROWS [data], where `data` leaves binds and inputs out"""
import json
import sys

folder, rows = sys.argv[1], int(sys.argv[2])
is_data = sys.argv[3:] == ["data"]
items = [["item", ["qty", "2"], ["price", "3.5"], ["sum"]] for _ in range(rows)]
binds = [
    ["xf:bind", {"nodeset": "item/sum", "calculate": "../qty * ../price"}],
    ["xf:bind", {"nodeset": "total", "calculate": "sum(../item/sum)"}],
]
inputs = [["xf:input", {"id": f"q{row}", "ref": f"item[{row}]/qty"}] for row in range(1, rows + 1)]
model = ["xf:model", ["xf:instance", ["order", *items, ["total"]]], *([] if is_data else binds)]
form = ["f", {"xmlns:xf": "http://www.w3.org/2002/xforms"}, model, *([] if is_data else inputs)]
with open(f"{folder}/form.json", "w") as out:
    json.dump(form, out, separators=(",", ":"))
with open(f"{folder}/events", "w") as out:
    for line in range(1000):
        out.write(json.dumps(["set", f"q{line * 7 % rows + 1}", [], str(line % 89 + 1)], separators=(",", ":")) + "\n")
