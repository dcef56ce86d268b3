"""The same loop in Python: reads the same lines with its json module and writes the same replies, each flushed."""
import json
import sys

form = json.load(open("form.json"))
values = {child[1]["id"]: "" for child in form if isinstance(child, list) and child[0] == "xf:input"}
accepted = 0
out = sys.stdout
for line in sys.stdin:
    event = json.loads(line)
    if event[0] == "set" and event[1] in values and event[2] == []:
        values[event[1]] = event[3]
        accepted += 1
        out.write(f"ok {accepted} 0\n")
    else:
        out.write("no E4 NoSuchTarget\n")
    out.flush()
