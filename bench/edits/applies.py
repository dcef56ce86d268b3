#!/usr/bin/env python3
"""Says which must-fail edits do not apply to the text of their crate, those of the gate and those under bench/edits, without any proof.

Usage: bench/edits/applies.py [CRATE..], all crates where none is named. Ends with 1 where one does not apply: each `old:` text must stand
once in its file, as earlier pairs of the edit left it, and the edit must change something. It does so too where refused.txt, which says when
edits under bench/edits were last refused, has a line for none of them, or its lines are not in the order of the names.
"""
import pathlib
import sys

TOP = pathlib.Path(__file__).resolve().parents[2]


def fault(edit, crate):
    """Why the edit does not apply to the crate's text, or None."""
    file, old, texts, changed = None, None, {}, False
    for line in edit.read_text(encoding="utf-8").split("\n"):
        word, _, rest = line.partition(":")
        rest = rest.removeprefix(" ")
        if word == "file":
            file = TOP / "crates" / crate / rest.strip()
            if not file.is_file():
                return f"there is no file {rest.strip()}"
            texts.setdefault(file, file.read_text(encoding="utf-8"))
        elif word == "old":
            old = rest
        elif word == "new":
            if file is None or not old:
                return "a 'new:' line stands before any 'file:' or 'old:' line"
            found = texts[file].count(old)
            if found != 1:
                return f"an 'old:' text stands in {file.name} {found} times: {old}"
            texts[file] = texts[file].replace(old, rest)
            changed, old = changed or old != rest, None
    return None if changed else "it changes nothing"


def strayed():
    """The lines of refused.txt that stand for no edit under bench/edits, or not in the order of the names."""
    lines = (TOP / "bench/edits/refused.txt").read_text(encoding="utf-8").splitlines()
    told = [tuple(line.split()[:2]) for line in lines if not line.startswith("#")]
    there = {(it.parts[-2], it.stem) for it in TOP.glob("bench/edits/*/*.edit")}
    faults = [f"refused.txt has a line for {crate} {edit}, which is not there" for crate, edit in told if (crate, edit) not in there]
    return faults + ([] if told == sorted(set(told)) else ["refused.txt is not in the order of the names, or has one twice"])


def main(names):
    edits = [(it, it.parts[-3]) for it in sorted(TOP.glob("crates/*/must-fail/*.edit"))]
    edits += [(it, it.parts[-2]) for it in sorted(TOP.glob("bench/edits/*/*.edit"))]
    edits = [(edit, crate) for edit, crate in edits if not names or crate in names]
    faults = [(edit, fault(edit, crate)) for edit, crate in edits]
    for edit, why in faults:
        if why:
            print(f"{edit.relative_to(TOP)}: {why}")
    lines = strayed()
    for line in lines:
        print(line)
    bad = sum(1 for _, why in faults if why)
    print(f"{len(edits) - bad} of {len(edits)} edits apply")
    return 1 if bad or lines else 0


if __name__ == "__main__":
    sys.exit(main(sys.argv[1:]))
