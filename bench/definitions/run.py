#!/usr/bin/env python3
"""Runs forms through the definitions of the form machine, translated to Python, and compares what they write with what must come.

    bench/definitions/run.py [--turns N] [--only NAME] [FILE ..]

FILE has a case on each line, as cases.jsonl beside this file, which is run where none is given: `name`, `form`, `lines`; `expect`, of each
line the lines written, or behind a `*` some of them in their order; `start`, what is written before; `refused`, in place of these, the line
of a refused form; `store`, the texts that stand in the store, and `stored`, those put. A line of a limit may name another limit. An event has
600 turns unless N is given, so that a loop without an end is soon refused. The definitions are pure and know no time: a large form takes long.
"""
import argparse
import json
import multiprocessing
import os
import re
import sys
import tempfile
import threading

HERE = os.path.dirname(os.path.abspath(__file__))
FREE = re.compile(r"^(no E11|form F17) Limit \w+$")


def prepare(turns):
    """The definitions as a module, and what the machine is given beside a form."""
    sys.setrecursionlimit(10 ** 7)
    threading.stack_size(1 << 30)
    sys.dont_write_bytecode = True
    sys.path.insert(0, HERE)
    import translate
    text, left_out = translate.source()
    for name in left_out:
        print("not translated:", name)
    with tempfile.TemporaryDirectory() as folder:
        with open(os.path.join(folder, "definitions.py"), "w", encoding="utf-8") as file:
            file.write(text)
        sys.path.insert(0, folder)
        import definitions
    from library import Fn
    import kept
    kept.keep_all()
    profile = definitions.xf_def_machine__Profile__usual(Fn(definitions.xf_funcs__Called__called, 4), Fn(definitions.xf_schema__Facets__is_of_type, 3))
    return profile.with_(f_turns=turns)


class Played:
    """A form that is started, with a store."""

    def __init__(self, profile, case):
        import definitions
        from form import Loader
        from library import text
        self.d, self.text, self.profile = definitions, text, profile
        self.store = {name: tuple(held.encode()) for name, held in case.get("store", {}).items()}
        self.refused, self.start, self.state = None, [], None
        program = Loader(case["form"]).program
        made = definitions.xf_def_machine__Construct__construct(profile, program)
        if made[0] == "Err":
            self.refused = [text(t)[:-1] for t in definitions.xf_def_machine__FormReplies__construct_texts(made)]
            return
        outcome = self.over_answers(lambda answers: definitions.xf_def_machine__Start__start(profile, program, answers),
                                    lambda outcome: outcome[2].f_calls if outcome[0] == "accepted" else outcome[2])
        written = text(definitions.xf_def_machine__FormReplies__start_text(outcome)).split("\n")[:-1]
        if outcome[0] == "refused":
            self.refused = written
            return
        self.start, self.state = written, outcome[1]

    def over_answers(self, run, calls_of):
        """What a run gives, whose calls of the store are answered one after the other; what it puts is kept."""
        answers = ()
        while True:
            outcome = run(answers)
            calls = calls_of(outcome)
            held = dict(self.store)
            for call in calls[:len(answers)]:
                if call.f_asked[0] == "Put":
                    held[self.text(call.f_name)] = call.f_asked[1]
            if len(calls) <= len(answers):
                self.store = held
                return outcome
            call = calls[len(answers)]
            name = self.text(call.f_name)
            answers += (("PutDone",) if call.f_asked[0] == "Put" else ("Found", held[name]) if name in held else ("Absent",),)

    def replies(self, line):
        """The lines that may be written for a line, each as a list."""
        reply = self.over_answers(lambda answers: self.d.xf_def_machine__Replies__reply(self.profile, True, self.state, answers, tuple(line.encode())),
                                  lambda reply: reply.f_calls)
        self.state = reply.f_after
        return [self.text(t).split("\n")[:-1] for t in reply.f_texts]


def plain(lines):
    return [FREE.sub(r"\1", line) for line in lines]


def difference(want, got):
    if want[:1] == ["*"]:
        rest = iter(got)
        missing = [line for line in want[1:] if line not in rest]
        return "missing %s in %s" % (missing, got) if missing else None
    for at in range(max(len(want), len(got))):
        one, other = (side[at] if at < len(side) else "(nothing)" for side in (want, got))
        if one != other:
            return "line %d: want %s, got %s" % (at + 1, one, other)
    return None


def fault_of(profile, case):
    played = Played(profile, case)
    if "refused" in case or played.refused is not None:
        want = [case.get("refused", "a start")]
        return None if plain(want)[0] in plain(played.refused or []) else "want %s, got %s" % (want[0], played.refused)
    if played.start != case.get("start", []):
        return "start: " + difference(case.get("start", []), played.start)
    for line, want in zip(case.get("lines", []), case.get("expect", [])):
        given = [difference(plain(want), plain(got)) for got in played.replies(line)]
        if None not in given:
            return "%s: %s" % (line[:80], given[0])
    stored = {name: bytes(held).decode() for name, held in played.store.items() if case.get("store", {}).get(name) != bytes(held).decode()}
    return None if stored == case.get("stored", stored) else "store: want %s, got %s" % (case["stored"], stored)


def tried(case):
    told = []

    def work():
        import kept
        kept.clear()
        try:
            told.append(fault_of(PROFILE, case))
        except Exception as why:  # a form that the definitions do not cover, or that loading would refuse
            told.append("%s: %s" % (type(why).__name__, why))

    thread = threading.Thread(target=work)
    thread.start()
    thread.join()
    return case["name"], told[0]


def main():
    global PROFILE
    parser = argparse.ArgumentParser(description=__doc__, formatter_class=argparse.RawDescriptionHelpFormatter)
    parser.add_argument("--turns", type=int, default=600)
    parser.add_argument("--only")
    parser.add_argument("--jobs", type=int, default=2)
    parser.add_argument("files", nargs="*", default=[os.path.join(HERE, "cases.jsonl")])
    given = parser.parse_args()
    PROFILE = prepare(given.turns)
    bad = 0
    for path in given.files:
        with open(path, encoding="utf-8") as file:
            cases = [json.loads(line) for line in file]
        cases = [case for case in cases if not given.only or case["name"] == given.only]
        good = 0
        with multiprocessing.Pool(given.jobs, maxtasksperchild=20) as pool:
            for name, fault in pool.imap(tried, cases):
                good += fault is None
                if fault is not None:
                    print("%s: %s" % (name, fault[:400]))
        print("%s: %d of %d hold" % (os.path.basename(path), good, len(cases)))
        bad += len(cases) - good
    return bad != 0


if __name__ == "__main__":
    sys.exit(main())
