#!/usr/bin/env python3
"""Lets what stands around a program harm its sessions, and prints what differs from what must come.

    bench/outside/run.py [PROGRAM [TIMES]]

PROGRAM is the built program, else that which `run` builds. Parts, each over new folders: two programs over one session, started together and
interleaved at random, TIMES times (200); slots and resources that are links, pipes, folders and devices; a user who may only read;
and, where there is strace, each call of the system in turn with an error. Each line of a table says what is given and what must come.
"""
import json
import os
import pathlib
import random
import re
import resource
import shutil
import signal
import subprocess
import sys
import tempfile
import time

TOP = pathlib.Path(__file__).resolve().parent.parent.parent
SPACES = {"xmlns:xf": "http://www.w3.org/2002/xforms", "xmlns:ev": "http://www.w3.org/2001/xml-events"}
FORM = json.dumps(["f", SPACES, ["xf:model", ["xf:instance", ["d", "1"]],
                                 ["xf:submission", {"id": "p", "resource": "o.json", "method": "put", "replace": "none"},
                                  ["xf:message", {"ev:event": "xforms-submit-error"}, ["xf:output", {"value": "event('error-type')"}]]],
                                 ["xf:submission", {"id": "g", "resource": "r.txt", "method": "get", "replace": "text", "serialization": "none"},
                                  ["xf:message", {"ev:event": "xforms-submit-error"}, ["xf:output", {"value": "event('error-type')"}]]]],
                   ["xf:input", {"id": "a", "ref": "."}]]).encode()
HELD = "session.a: another program has the session\n"
NOBODY = 65534


def as_nobody():
    if os.getuid() == 0:
        os.setgroups([])
        os.setgid(NOBODY)
        os.setuid(NOBODY)


def line(number):
    return json.dumps(["set", "a", [], str(number)]).encode() + b"\n"


class Box:
    """A folder with a form, in which the program is run."""

    def __init__(self, program, top):
        self.program = str(program)
        self.at = pathlib.Path(tempfile.mkdtemp(dir=top))
        (self.at / "form.json").write_bytes(FORM)
        self.own()

    def own(self):
        if os.getuid() == 0:
            for path in [self.at, *self.at.rglob("*")]:
                os.lchown(path, NOBODY, NOBODY)

    def started(self, word, before=()):
        return subprocess.Popen([*before, self.program, word], cwd=self.at, stdin=subprocess.PIPE, stdout=subprocess.PIPE, stderr=subprocess.PIPE, preexec_fn=as_nobody)

    def ran(self, word, given=b"", before=(), seconds=60):
        """What it answers, what it says, and the number that it ends with; None in its place where it does not end."""
        program = self.started(word, before)
        try:
            out, said = program.communicate(given, timeout=seconds)
        except subprocess.TimeoutExpired:
            program.kill()
            program.communicate()
            return b"", "", None
        return out, said.decode(), program.returncode

    def shown(self):
        """The text of the one control, or what the program says instead."""
        out, said, status = self.ran("show")
        found = re.search(rb'^control a \[\] ewrv|^control a \[\] \S+ "(.*)"$', out, re.M)
        return found.group(1).decode() if status == 0 and found else (out.decode(), said, status)

    def drop(self):
        shutil.rmtree(self.at)


class Told:
    """Counts what is as it must be, and tells what is not."""

    def __init__(self):
        self.good = self.bad = 0

    def same(self, what, got, want):
        if got == want:
            self.good += 1
            return True
        self.bad += 1
        if self.bad < 30:
            print("%s: want %.300s, got %.300s" % (what, want, got))
        return False

    def true(self, what, fact, got=""):
        return self.same(what, bool(fact), True) or print("   ", str(got)[:300])


# ---- two programs over one session

class Client:
    """A program that is given one line at a time."""

    def __init__(self, box, word, chance):
        self.program = box.started(word)
        self.word = word
        self.left = chance.randrange(1, 6) if word == "run" else 0
        self.taken = []

    def turn(self, number):
        """Gives a line, and takes the reply. Whether it goes on."""
        if self.left == 0:
            return False
        self.left -= 1
        try:
            self.program.stdin.write(line(number))
            self.program.stdin.flush()
        except BrokenPipeError:
            return False
        reply = self.program.stdout.readline()
        if reply.startswith(b"ok "):
            self.taken.append(number)
        return reply != b"fault disk\n" and reply != b""

    def end(self):
        try:
            self.program.stdin.close()
        except BrokenPipeError:
            pass
        self.rest = self.program.stdout.read()
        self.said = self.program.stderr.read().decode()
        return self.program.wait(60)


def together(program, top, told, times=200):
    chance = random.Random(1)
    for turn in range(times):
        box = Box(program, top)
        number = 0
        if chance.random() < 0.5:
            box.ran("run", line(number))
        clients = [Client(box, word, chance) for word in chance.choice([("run", "run"), ("run", "show"), ("show", "run")])]
        going = [client for client in clients if client.word == "run"]
        taken = []
        while going:
            client = chance.choice(going)
            number += 1
            if not client.turn(number):
                going.remove(client)
            elif client.taken and client.taken[-1] == number:
                taken.append(number)
            if chance.random() < 0.2:
                time.sleep(chance.random() / 100)
        ends = [client.end() for client in clients]
        what = "turn %d, %s" % (turn, [client.word for client in clients])
        for client, status in zip(clients, ends):
            if status == 6:
                told.same(what, client.said, HELD)
                told.same(what + ", takes nothing", client.taken, [])
            else:
                told.true(what + ": one has it, or there is none", status == 0 or (client.word == "show" and status == 7), (status, client.rest, client.said))
        if taken:
            told.same(what + ": what was acknowledged stays", box.shown(), str(taken[-1]))
        box.drop()


def gone_with_it(program, top, told):
    box = Box(program, top)
    first = box.started("run")
    first.stdin.write(line(1))
    first.stdin.flush()
    told.same("the first has it", first.stdout.readline(), b"ok 1 0\n")
    told.same("a second is refused", box.ran("run", line(2)), (b"fault disk\n", HELD, 6))
    told.same("so is one that shows", box.ran("show"), (b"fault disk\n", HELD, 6))
    told.same("one that tries asks for no session", box.ran("try", line(2)), (b"ok 1 0\n", "", 0))
    first.send_signal(signal.SIGKILL)
    first.wait()
    told.same("the lock is gone with a program that is killed", box.ran("run", line(2))[::2], (b"ok 2 0\n", 0))
    box.drop()


# ---- files that are no plain files

def make(box, path, kind):
    """Makes a file of a kind: a link is told by `> where it leads`, a text by `= text`."""
    at = box.at / path
    at.parent.mkdir(exist_ok=True)
    if kind == "pipe":
        os.mkfifo(at)
    elif kind == "folder":
        at.mkdir()
    elif kind.startswith("> "):
        at.symlink_to(kind[2:])
    else:
        at.write_text(kind[2:])
    box.own()


PLAIN = "%s: open: it is no plain file\n"
# the file, its kind, and what `run` with one line answers, says and ends with
SLOTS = [
    ("session.a", "pipe", (b"fault disk\n", PLAIN % "session.a", 6)),
    ("session.b", "pipe", (b"fault disk\n", PLAIN % "session.b", 6)),
    ("session.a", "folder", (b"fault disk\n", PLAIN % "session.a", 6)),
    ("session.b", "> /dev/null", (b"fault disk\n", PLAIN % "session.b", 6)),
    ("session.b", "> session.a", (b"fault disk\n", "session.b: open: both slots are this one file\n", 6)),
    ("session.a", "> elsewhere", (b"ok 1 0\n", "", 0)),
]
SENT = b'note message "resource-error"\nok 1 0\n'
# the file, its kind, the submission, what is answered, the file that is looked at then, and what it holds, or None where there is none
STORES = [
    ("store/.put", "> ../kept", "p", b"ok 1 0\n", "kept", "kept"),
    ("store/.put", "> ../kept", "p", b"ok 1 0\n", "store/.put", None),
    ("store/.put", "> ../session.a", "p", b"ok 1 0\n", "store/.put", None),
    ("store/.put", "= left", "p", b"ok 1 0\n", "store/.put", None),
    ("store/.put", "pipe", "p", b"ok 1 0\n", "store/.put", None),
    ("store/.put", "folder", "p", SENT, "store/o.json", None),
    ("store/o.json", "folder", "p", SENT, "store/.put", None),
    ("store/r.txt", "pipe", "g", SENT, "store/r.txt/none", None),
    ("store/r.txt", "folder", "g", SENT, "store/r.txt/none", None),
    ("store/r.txt", "> /dev/zero", "g", SENT, "store/r.txt/none", None),
    ("store/r.txt", "> ../kept", "g", b"ok 1 0\n", "kept", "kept"),
]


def kinds(program, top, told):
    for path, kind, want in SLOTS:
        box = Box(program, top)
        make(box, path, kind)
        before = sorted(each.name for each in box.at.iterdir())
        told.same("%s is %s" % (path, kind), box.ran("run", line(1), seconds=10), want)
        if want[2] == 6 and not kind.startswith("> session"):
            told.same("%s is %s: nothing is made" % (path, kind), sorted(each.name for each in box.at.iterdir()), before)
        box.drop()
    for path, kind, submission, want, seen, held in STORES:
        box = Box(program, top)
        (box.at / "kept").write_text("kept")
        make(box, path, kind)
        sent = json.dumps(["send", submission]).encode() + b"\n"
        out, said, status = box.ran("run", sent, seconds=10)
        what = "%s is %s" % (path, kind)
        told.same(what, (out, said, status), (want, "", 0))
        there = box.at / seen
        told.same(what + ": " + seen, there.read_text() if there.is_file() else None, held)
        told.same(what + ": the session goes on", box.ran("run", line(5))[::2], (b"ok 2 0\n", 0))
        box.drop()


# ---- who may only read

def reading(program, top, told):
    box = Box(program, top)
    told.same("nothing to show", box.ran("show"), (b"session NoSession\n", "session.a, session.b: no whole session of form.json\n", 7))
    told.same("nothing is made", sorted(each.name for each in box.at.iterdir()), ["form.json"])
    box.ran("run", line(7))
    for name in ("session.a", "session.b", "form.json"):
        (box.at / name).chmod(0o444)
    box.at.chmod(0o555)
    told.same("a session that may only be read is shown", box.shown(), "7")
    out, said, status = box.ran("run", line(8))
    told.same("and not gone on with", (out, said, status), (b"fault disk\n", "session.a: open: Permission denied (os error 13)\n", 6))
    box.at.chmod(0o755)
    box.drop()


# ---- each call of the system with an error

CALLS = "openat,pread64,pwrite64,fdatasync,fsync,read,write,rename,mkdir,unlink,statx,fstat,flock"


def failing(program, top, told):
    if shutil.which("strace") is None:
        print("skipped: no strace here")
        return
    trace = ["strace", "-f", "-o", "trace", "-e", "trace=" + CALLS]
    given = line(1) + b'["send","p"]\n' + line(2)
    whole = b"ok 1 0\nok 2 0\nok 3 0\n"
    box = Box(program, top)
    told.same("the whole run", box.ran("run", given, before=trace)[::2], (whole, 0))
    called = {}
    for text in (box.at / "trace").read_text().splitlines():
        name = re.match(r"\d+ +([a-z0-9]+)\(", text)
        if name:
            called[name.group(1)] = called.get(name.group(1), 0) + 1
    box.drop()
    for name, times in sorted(called.items()):
        for at in range(1, times + 1):
            for error in ("EINTR", "EIO", "ENOSPC", "EACCES", "EMFILE"):
                box = Box(program, top)
                inject = trace + ["-e", "inject=%s:error=%s:when=%d" % (name, error, at)]
                out, said, status = box.ran("run", given, before=inject)
                what = "%s, number %d, %s" % (name, at, error)
                if status == 127:
                    # the loader's call, before the program is there
                    box.drop()
                    continue
                if error == "EINTR" and name not in ("rename", "mkdir", "unlink", "statx", "fstat"):
                    told.same(what, (out, status), (whole, 0))
                else:
                    told.true(what + ": a number of its own", status in (0, 4, 5, 6), (out, said, status))
                    told.true(what + ": a line on standard error", status == 0 or said, (out, said, status))
                    acknowledged = [int(n) for n in re.findall(rb"^ok (\d+)", out, re.M)]
                    shown = box.shown()
                    if acknowledged:
                        want = {1: ("1", "2"), 2: ("1", "2"), 3: ("2",)}[acknowledged[-1]]
                        told.true(what + ": what was acknowledged stays", shown in want, (out, said, status, shown))
                    else:
                        told.true(what + ": no damage", "Damaged" not in str(shown), (out, said, status, shown))
                box.drop()


def main(program=TOP / "crates/xforms/out/xforms", times="200"):
    told = Told()
    resource.setrlimit(resource.RLIMIT_CORE, (0, 0))
    with tempfile.TemporaryDirectory() as top:
        os.chmod(top, 0o755)
        own = pathlib.Path(top) / "xforms"
        shutil.copy(program, own)
        own.chmod(0o755)
        parts = [(gone_with_it, ()), (together, (int(times),)), (kinds, ()), (reading, ()), (failing, ())]
        for part, more in parts:
            before = told.good, told.bad
            part(own, top, told, *more)
            print("%s: %d as they must be, %d not" % (part.__name__, told.good - before[0], told.bad - before[1]), flush=True)
    return told.bad != 0


if __name__ == "__main__":
    sys.exit(main(*sys.argv[1:]))
