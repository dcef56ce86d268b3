"""Writes a form of 32 inputs, and a number of set lines over it."""
import json
import sys

folder, count = sys.argv[1], int(sys.argv[2])
data = ["d"] + [[f"n{k}", str(k)] for k in range(32)]
inputs = [["xf:input", {"id": f"i{k}", "ref": f"n{k}"}] for k in range(32)]
form = ["f", {"xmlns:xf": "http://www.w3.org/2002/xforms"}, ["xf:model", ["xf:instance", data]]] + inputs
with open(f"{folder}/form.json", "w") as out:
    json.dump(form, out)
with open(f"{folder}/events", "w") as out:
    for k in range(count):
        out.write(json.dumps(["set", f"i{k * 7 % 32}", [], f"value {k}"]) + "\n")
