#!/usr/bin/env python3
"""Stops sessions of a program over real files, opens them again, and prints what differs from what must come.

    bench/stops/run.py [PROGRAM]

PROGRAM is the built program, else that which `run` builds. Five parts, each over new folders: the slots byte by byte; slots that were cut, changed or
torn at each byte; a program that is killed at some moment, many times; submissions, which no opening makes again; files that cannot be read or written.
What must come is told by `try` over the first lines: a session goes on where one that was not stopped would.
"""
import json
import os
import pathlib
import random
import shutil
import subprocess
import sys
import tempfile
import time

TOP = pathlib.Path(__file__).resolve().parent.parent.parent
SPACES = {"xmlns:xf": "http://www.w3.org/2002/xforms", "xmlns:ev": "http://www.w3.org/2001/xml-events"}
SMALL = b'["f",{"xmlns:xf":"http://www.w3.org/2002/xforms"},["xf:model",["xf:instance",["d","1"]]],["xf:input",{"id":"a","ref":"."}]]'
SET = b'["set","a",[],"2"]'
ORDER = json.dumps(["f", SPACES, ["xf:model",
                                  ["xf:instance", ["order", ["item", ["qty", "2"], ["price", "3.5"], ["sum"]], ["total"]]],
                                  ["xf:bind", {"nodeset": "item/sum", "calculate": "../qty * ../price"}],
                                  ["xf:bind", {"nodeset": "total", "calculate": "sum(../item/sum)"}],
                                  ["xf:message", {"ev:event": "xforms-ready"}, "begun"]],
                    ["xf:repeat", {"id": "r", "nodeset": "item"}, ["xf:input", {"id": "q", "ref": "qty"}], ["xf:output", {"id": "s", "ref": "sum"}]],
                    ["xf:output", {"id": "t", "ref": "total"}],
                    ["xf:trigger", {"id": "add"}, ["xf:insert", {"ev:event": "DOMActivate", "nodeset": "item"}]],
                    ["xf:trigger", {"id": "del"}, ["xf:delete", {"ev:event": "DOMActivate", "nodeset": "item", "at": "index('r')"}]]]).encode()
SENDING = json.dumps(["f", SPACES, ["xf:model", ["xf:instance", ["d", "1"]],
                                    ["xf:submission", {"id": "s", "resource": "o.json", "method": "put", "replace": "none"}],
                                    ["xf:submission", {"id": "g", "resource": "r.txt", "method": "get", "replace": "text", "serialization": "none"}]],
                      ["xf:input", {"id": "a", "ref": "."}]]).encode()
NOBODY = 65534


def as_nobody():
    if os.getuid() == 0:
        os.setgroups([])
        os.setgid(NOBODY)
        os.setuid(NOBODY)


class Box:
    """A folder with a form, in which the program is run."""

    def __init__(self, program, top, form):
        self.program = program
        self.at = pathlib.Path(tempfile.mkdtemp(dir=top))
        (self.at / "form.json").write_bytes(form)
        self.own()

    def own(self):
        if os.getuid() == 0:
            for path in [self.at, *self.at.rglob("*")]:
                os.chown(path, NOBODY, NOBODY)

    def ran(self, word, lines=()):
        given = b"".join(line + b"\n" for line in lines)
        done = subprocess.run([str(self.program), word], cwd=self.at, input=given, stdout=subprocess.PIPE, stderr=subprocess.DEVNULL, timeout=600, preexec_fn=as_nobody)
        return done.stdout, done.returncode

    def slot(self, name):
        path = self.at / ("session." + name)
        return path.read_bytes() if path.exists() else b""

    def give(self, a, b=b""):
        for name, held in (("a", a), ("b", b)):
            (self.at / ("session." + name)).write_bytes(held)
        self.own()

    def drop(self):
        shutil.rmtree(self.at)


class Told:
    """Counts what is as it must be, and tells what is not."""

    def __init__(self):
        self.good = self.bad = 0

    def same(self, what, got, want):
        if got == want:
            self.good += 1
            return True
        self.bad += 1
        if self.bad < 30:
            print("%s: want %.300s, got %.300s" % (what, want, got))
        return False


def states(program, top, form, lines):
    """What `show` says after each front of the lines that are accepted, and how many lines that front takes."""
    box = Box(program, top, form)
    (text, status) = box.ran("try", [b'["show"]'] + [each for line in lines for each in (line, b'["show"]')])
    assert status == 0, (text, status)
    box.drop()
    blocks, replies, block = [], [], []
    for line in text.decode().splitlines():
        if line.startswith("instance ") and not block or block:
            block.append(line)
            if line == "end":
                blocks.append("".join(each + "\n" for each in block).encode())
                block = []
        elif line.startswith(("ok ", "no ")):
            replies.append(line)
    found = [blocks[0]]
    for reply, state in zip(replies, blocks[1:]):
        if reply.startswith("ok "):
            found.append(state)
    return found, replies


# ---- the slots byte by byte

def four(n):
    return n.to_bytes(4, "little")


def begun(form, base=b"\0\0"):
    return b"\1XFS2" + (1).to_bytes(8, "little") + four(len(form)) + four(len(base)) + four(0) + form + base + b"\0"


def entry(line, answers=b"\0"):
    body = four(len(line)) + line + answers
    return four(len(body)) + body + b"\0"


def layout(program, top, told):
    box = Box(program, top, SMALL)
    told.same("a start", box.ran("run"), (b"", 0))
    told.same("slot A of a start", box.slot("a"), begun(SMALL))
    told.same("an event", box.ran("run", [SET]), (b"ok 1 0\n", 0))
    whole = begun(SMALL)[:-1] + b"\1" + entry(SET)
    told.same("slot A of an event", box.slot("a"), whole)
    told.same("slot B", box.slot("b"), b"")
    shown = b'instance 1.1\n/d ew-v "%s"\ncontrol a [] ew-v "%s"\nend\n'
    told.same("show", box.ran("show"), (shown % (b"2", b"2"), 0))
    told.same("show leaves the slots", box.slot("a"), whole)
    told.same("blank and refused lines", box.ran("run", [b"", b'["set","z",[],"2"]', b'["show"]']), (b"no E4 NoSuchTarget\n" + shown % (b"2", b"2"), 0))
    told.same("they leave the slots", box.slot("a"), whole)
    for gate in (b"\0", b"\xff"):
        box.give(whole[:150] + gate + whole[151:])
        told.same("a gate of %r" % gate, box.ran("show"), (shown % (b"1", b"1"), 0))
    old = b"\1XFS1" + whole[5:21] + whole[25:]
    box.give(old)
    told.same("format 1", box.ran("show"), (shown % (b"2", b"2"), 0))
    told.same("format 1 goes on", box.ran("run", [b'["set","a",[],"3"]']), (b"ok 2 0\n", 0))
    told.same("format 1 is appended to", box.slot("a"), old[:-1] + b"\1" + entry(b'["set","a",[],"3"]'))
    box.give(whole)
    (box.at / "form.json").write_bytes(SMALL.replace(b'"1"', b'"3"'))
    told.same("another form", box.ran("show"), (b"session OtherForm 83\n", 7))
    told.same("another form", box.ran("run", [SET]), (b"session OtherForm 83\n", 7))
    (box.at / "form.json").write_bytes(SMALL)
    box.give(b"")
    told.same("empty slots", box.ran("show"), (b"session NoSession\n", 7))
    box.give(whole[:1] + b"\0" + whole[2:])
    told.same("a wrong tag", box.ran("run"), (b"session Damaged A 1\n", 7))
    box.give(whole, whole)
    told.same("two of one epoch", box.ran("run"), (b"session Damaged B 5\n", 7))
    box.give(b"\0" * 30, whole)
    told.same("the other slot", box.ran("show"), (shown % (b"2", b"2"), 0))
    told.same("check looks at no slot", box.ran("check"), (b"form ok\n", 0))
    told.same("words", box.ran("runs"), (b"usage: xforms run | try | show | check\n", 2))
    box.drop()


# ---- slots that are cut, changed or torn

def edges(program, top, told):
    box = Box(program, top, SMALL)
    lines = [b'["set","a",[],"%d"]' % k for k in range(2, 5)]
    fronts, _ = states(program, top, SMALL, lines)
    told.same("three events", box.ran("run", lines)[1], 0)
    whole = box.slot("a")
    gates = [len(begun(SMALL)) - 1]
    for line in lines:
        gates.append(gates[-1] + len(entry(line)))
    for n in range(len(whole) + 1):
        box.give(whole[:n])
        if n < 22:
            want = (b"session NoSession\n", 7)
        elif n < 26 + len(SMALL) - 1:
            want = None
        elif n == len(whole):
            want = (fronts[3], 0)
        else:
            want = None
        got = box.ran("show")
        if want is None:
            told.same("cut to %d" % n, got[1] == 7 and got[0].startswith(b"session Damaged A "), True)
        else:
            told.same("cut to %d" % n, got, want)
    for at in range(gates[0], len(whole)):
        box.give(whole[:at] + bytes([whole[at] ^ 2]) + whole[at + 1:])
        got = box.ran("show")
        if at in gates:
            k = gates.index(at)
            told.same("gate %d closed" % k, got, (fronts[k], 0))
        else:
            told.same("byte %d changed" % at, got[1] in (0, 7) and (got[1] == 7 or got[0].startswith(b"instance 1.1\n")), True)
    # an append that stops: any part of the entry and any bytes in its place stand behind the closed gate, which is then torn or opened
    for n in range(len(entry(SET)) + 1):
        for fill in (b"", b"\0", b"\1", b"\xff"):
            part = entry(SET)[:n] + fill * (len(entry(SET)) - n)
            box.give(whole[:-1] + b"\0" + part)
            told.same("an entry of %d bytes" % n, box.ran("show"), (fronts[3], 0))
    box.give(whole[:-1] + b"\xff" + entry(SET))
    told.same("a torn gate", box.ran("show"), (fronts[3], 0))
    told.same("it goes on", box.ran("run", [SET]), (b"ok 4 0\n", 0))
    told.same("over what was left", box.slot("a"), whole[:-1] + b"\1" + entry(SET))
    # a start that stops
    made = begun(SMALL)
    for n in range(len(made)):
        box.give(b"\0" + made[1:n])
        told.same("a start of %d bytes" % n, box.ran("show"), (b"session NoSession\n", 7))
    told.same("it starts", box.ran("run", [SET]), (b"ok 1 0\n", 0))
    box.drop()


# ---- a program that is killed

def some_line(chance):
    return chance.choice([
        b'["set","q",[%d],"%d"]' % (chance.randint(1, 4), chance.randint(0, 9)),
        b'["activate","add",[]]',
        b'["activate","del",[]]',
        b'["index","r",%d]' % chance.randint(0, 4),
        b'["reset",""]' if chance.random() < 0.1 else b'["set","q",[1],"x"]',
    ])


def killed_once(box, lines, after, chance):
    """Feeds the lines, and kills the program some moment after so many replies; gives the replies that came out."""
    run = subprocess.Popen([str(box.program), "run"], cwd=box.at, stdin=subprocess.PIPE, stdout=subprocess.PIPE, stderr=subprocess.DEVNULL, preexec_fn=as_nobody)
    os.set_blocking(run.stdin.fileno(), False)
    given = b"".join(line + b"\n" for line in lines)
    try:
        run.stdin.write(given)
        run.stdin.flush()
    except (BlockingIOError, BrokenPipeError):
        pass
    got = b""
    while sum(each.startswith((b"ok", b"no")) for each in got.split(b"\n")) <= after:
        piece = run.stdout.read1(1)
        if not piece:
            break
        got += piece
    time.sleep(chance.random() * 0.004)
    run.kill()
    got += run.stdout.read()
    run.wait()
    return got


def kills(program, top, told, times=40):
    chance = random.Random(7)
    for turn in range(times):
        lines = [some_line(chance) for _ in range(60)]
        fronts, replies = states(program, top, ORDER, lines)
        box = Box(program, top, ORDER)
        stood = taken = 0
        for _ in range(3):
            rest = lines[taken:]
            out = killed_once(box, rest, chance.randint(-1, max(len(rest) - 1, 0)), chance)
            acknowledged = stood + sum(each.startswith(b"ok ") for each in out.split(b"\n")[:-1])
            shown = box.ran("show")
            if shown == (b"session NoSession\n", 7):
                told.same("a session that was acknowledged", acknowledged, 0)
                continue
            count = shown[0] == b"" and -1 or max([k for k, state in enumerate(fronts) if state == shown[0] and k >= acknowledged] or [-1])
            if not told.same("turn %d: a state behind the %d acknowledged ones" % (turn, acknowledged), count >= acknowledged and shown[1] == 0, True):
                break
            # the number of the next event tells how many stand
            more = box.ran("run", [b'["show"]'])
            told.same("show and run", more[0], shown[0])
            entries = accepted(box.slot("a"))
            told.same("an acknowledged event stands", entries >= acknowledged, True)
            told.same("no more events than lines", entries <= stood + len(rest), True)
            told.same("the state of so many events", shown[0], fronts[entries])
            stood, taken, seen = entries, 0, 0
            for k, reply in enumerate(replies):
                if seen == stood:
                    break
                seen += reply.startswith("ok ")
                taken = k + 1
        out, status = box.ran("run", lines[taken:])
        told.same("it goes on to the end", status, 0)
        told.same("the same replies", [each for each in out.decode().splitlines() if each.startswith(("ok ", "no "))], replies[taken:])
        told.same("the last state", box.ran("show")[0], fronts[-1])
        box.drop()


def accepted(slot):
    """How many entries a slot holds."""
    at = 25 + int.from_bytes(slot[13:17], "little") + int.from_bytes(slot[17:21], "little")
    count = 0
    while slot[at] == 1:
        at += 5 + int.from_bytes(slot[at + 1:at + 5], "little")
        count += 1
    return count


# ---- submissions

def submissions(program, top, told):
    box = Box(program, top, SENDING)
    told.same("a put", box.ran("run", [b'["send","s"]']), (b"ok 1 0\n", 0))
    put = box.at / "store" / "o.json"
    told.same("its file", put.read_bytes(), b'["d","1"]')
    (box.at / "store" / "r.txt").write_bytes(b"seven")
    box.own()
    told.same("a get", box.ran("run", [b'["send","g"]']), (b"ok 2 0\n", 0))
    shutil.rmtree(box.at / "store")
    shown = box.ran("show")
    told.same("what was got", shown, (b'instance 1.1\n/d ew-v "seven"\ncontrol a [] ew-v "seven"\nend\n', 0))
    told.same("it goes on", box.ran("run", [b'["set","a",[],"8"]']), (b"ok 3 0\n", 0))
    told.same("no call is made again", (box.at / "store").exists(), False)
    box.drop()


# ---- files that fail

def faults(program, top, told):
    box = Box(program, top, SMALL)
    (box.at / "session.a").mkdir()
    told.same("a folder in the place of a slot", box.ran("run", [SET]), (b"fault disk\n", 6))
    told.same("a folder in the place of a slot", box.ran("show"), (b"fault disk\n", 6))
    told.same("try has no slots", box.ran("try", [SET]), (b"ok 1 0\n", 0))
    box.drop()
    box = Box(program, top, SMALL)
    box.ran("run", [SET])
    held = box.slot("a")
    for name in "ab":
        (box.at / ("session." + name)).chmod(0o444)
    box.at.chmod(0o555)
    got, status = box.ran("run", [SET])
    told.same("slots that may not be written", (got, status), (b"fault disk\n", 6))
    told.same("they stay", box.slot("a"), held)
    box.at.chmod(0o755)
    box.drop()


def main(program=TOP / "crates/xforms/out/xforms"):
    told = Told()
    with tempfile.TemporaryDirectory() as top:
        os.chmod(top, 0o755)
        own = pathlib.Path(top) / "xforms"
        shutil.copy(program, own)
        own.chmod(0o755)
        for part in (layout, edges, submissions, faults, kills):
            before = told.good, told.bad
            part(own, top, told)
            print("%s: %d as they must be, %d not" % (part.__name__, told.good - before[0], told.bad - before[1]), flush=True)
    return told.bad != 0


if __name__ == "__main__":
    sys.exit(main(*sys.argv[1:]))
