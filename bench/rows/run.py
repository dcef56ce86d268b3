#!/usr/bin/env python3
"""Times forms of N rows with three controls each: how long it takes to begin, to insert a row at the front, and to set a text, in microseconds a copy.

    bench/rows/run.py [PROGRAM]

PROGRAM is the built program `xforms`, else that which `run` builds. Each time is the least of five, of the processor; the time of a run without lines
is taken off those of lines. There is no goal but that the time grows with the copies: the last line says how much more a copy takes in the largest form.
"""
import json
import os
import subprocess
import sys
import tempfile

TOP = os.path.dirname(os.path.dirname(os.path.dirname(os.path.abspath(__file__))))
SPACES = {"xmlns:xf": "http://www.w3.org/2002/xforms", "xmlns:ev": "http://www.w3.org/2001/xml-events"}
TIMES = 20


def form(rows):
    data = ["order"] + [["line", ["item", "tea"], ["count", "2"], ["price", "3"]] for _ in range(rows)]
    return ["f", SPACES, ["xf:model", ["xf:instance", data]],
            ["xf:repeat", {"id": "r", "nodeset": "line"}, ["xf:input", {"id": "item", "ref": "item"}], ["xf:input", {"id": "count", "ref": "count"}],
             ["xf:output", {"id": "price", "ref": "price"}]],
            ["xf:trigger", {"id": "front"}, ["xf:insert", {"ev:event": "DOMActivate", "nodeset": "line", "at": "1", "position": "before"}]]]


def seconds(program, folder, lines):
    best = None
    for _ in range(5):
        before = os.times()
        done = subprocess.run([program, "try"], cwd=folder, input="".join(line + "\n" for line in lines).encode(), stdout=subprocess.PIPE, check=True)
        after = os.times()
        if not all(line.startswith(b"ok ") for line in done.stdout.splitlines()):
            sys.exit("the lines are not accepted")
        spent = after.children_user + after.children_system - before.children_user - before.children_system
        best = spent if best is None else min(best, spent)
    return best


def main():
    program = os.path.abspath(sys.argv[1] if len(sys.argv) > 1 else os.path.join(TOP, "crates/xforms/out/xforms"))
    first = last = None
    for rows in (500, 1000, 2000, 4000, 8000):
        with tempfile.TemporaryDirectory() as folder:
            with open(os.path.join(folder, "form.json"), "w", encoding="utf-8") as file:
                json.dump(form(rows), file)
            begun = seconds(program, folder, [])
            front = (seconds(program, folder, ['["activate","front",[]]'] * TIMES) - begun) / TIMES
            sets = (seconds(program, folder, ['["set","item",[1],"%d"]' % n for n in range(TIMES)]) - begun) / TIMES
        copies = 3 * rows
        print("%d rows, %d copies: begins in %.0f ms; a row at the front %.2f ms, %.2f us a copy; a set %.2f ms, %.2f us a copy"
              % (rows, copies, begun * 1e3, front * 1e3, front / copies * 1e6, sets * 1e3, sets / copies * 1e6))
        last = front / copies
        first = first or last
    print("a copy takes %.1f times as long at the end as at the beginning" % (last / first))


if __name__ == "__main__":
    main()
