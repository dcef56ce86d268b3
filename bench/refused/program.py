#!/usr/bin/env python3
"""Runs the built program with each of its allocations refused in turn: it must write the right bytes, or a front of them and `fault memory`,
and end with the right status or with 9.

    bench/refused/program.py REFUSE_SO [PROGRAM [NAME ..]]

REFUSE_SO is refuse.c beside this file, built as run.sh builds it. What is run are the example of the program and those of `examples`, or the named
ones of these alone, each time over a new copy of its files."""
import os
import shutil
import subprocess
import sys
import tempfile

HERE = os.path.dirname(os.path.abspath(__file__))
TOP = os.path.dirname(os.path.dirname(HERE))
FAULT = b"fault memory\n"


def contents(path):
    with open(path, "rb") as file:
        return file.read()


def is_right(status, text, wanted, wanted_status):
    if status == 9:
        return text.endswith(FAULT) and wanted.startswith(text[:-len(FAULT)])
    return (status, text) == (wanted_status, wanted)


def tried(refuse, program, folder, events, wanted, wanted_status):
    """How many allocations were refused, and how many of these runs went wrong."""
    refused = wrong = 0
    while True:
        given = {"REFUSE": str(refused + 1), "LD_PRELOAD": refuse}
        with tempfile.TemporaryDirectory() as box:
            copy = shutil.copytree(folder, os.path.join(box, "copy"))
            run = subprocess.run([program, "try"], cwd=copy, input=events, stdout=subprocess.PIPE, stderr=subprocess.PIPE, env=given, timeout=60)
        if b"refused" not in run.stderr:
            return refused, wrong
        refused += 1
        if not is_right(run.returncode, run.stdout, wanted, wanted_status):
            wrong += 1
            print(f"{folder}: allocation {refused} refused: status {run.returncode}")


def main():
    refuse = os.path.abspath(sys.argv[1])
    program = os.path.abspath(sys.argv[2] if len(sys.argv) > 2 else f"{TOP}/crates/xforms/out/xforms")
    own = f"{TOP}/crates/xforms"
    names = sys.argv[3:] or sorted(name for name in os.listdir(f"{TOP}/examples") if os.path.exists(f"{TOP}/examples/{name}/form.json"))
    runs = [] if sys.argv[3:] else [(f"{own}/data", f"{own}/stdin", f"{own}/stdout")]
    for name in names:
        folder = f"{TOP}/examples/{name}"
        runs.append((folder, f"{folder}/events", f"{folder}/replies"))
    bad = 0
    for folder, events, replies in runs:
        wanted = contents(replies)
        refused, wrong = tried(refuse, program, folder, contents(events), wanted, 3 if wanted.startswith(b"form F") else 0)
        print(f"{os.path.relpath(folder, TOP)}: {refused} allocations refused in turn, {wrong} runs wrong")
        bad += wrong
    return bad != 0


sys.exit(main())
