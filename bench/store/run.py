#!/usr/bin/env python3
"""Runs submissions of a program over real files in the folder `store`, and prints what differs from what must come.

    bench/store/run.py [PROGRAM]

PROGRAM is the built program, else that which `run` builds. Each case has a new folder. Where the user is root, who may read and write everything, the
program is run as the user 65534, so that what may not be read or written is felt. Where there is strace, the calls of one put are looked at too.
"""
import json
import os
import pathlib
import re
import shutil
import subprocess
import sys
import tempfile

TOP = pathlib.Path(__file__).resolve().parent.parent.parent
SPACES = {"xmlns:xf": "http://www.w3.org/2002/xforms", "xmlns:ev": "http://www.w3.org/2001/xml-events"}
ERROR = ["xf:message", {"ev:event": "xforms-submit-error"}, ["xf:output", {"value": "event('error-type')"}]]
MOST = 1 << 20
NOBODY = 65534


def form(attributes, *more, data="1"):
    """A form with one submission `s`."""
    return ["f", SPACES, ["xf:model", ["xf:instance", ["d", data]], ["xf:submission", dict({"id": "s"}, **attributes), ERROR]], *more]


def put(name="o.json", **more):
    return form(dict({"resource": name, "method": "put", "replace": "none"}, **more))


def get(name="r.txt", **more):
    return form(dict({"resource": name, "method": "get", "replace": "text"}, **more))


LOOP = ["xf:trigger", {"id": "x"}, ["xf:send", {"ev:event": "DOMActivate", "submission": "s", "while": "true()"}]]
FAILED = ['note message "resource-error"', "ok 1 0"]
SEND = '["send","s"]'
TEXT = '/d ew-v "%s"'


def folder(box, **files):
    (box / "store").mkdir()
    for name, held in files.items():
        (box / "store" / name.replace("_", ".")).write_bytes(held)


def nothing(box):
    """No folder is there."""


def closed(box):
    folder(box, o_json=b"old")
    (box / "store").chmod(0o555)


def unreadable(box):
    folder(box, r_txt=b"hidden")
    (box / "store" / "r.txt").chmod(0)


def is_file(box):
    (box / "store").write_bytes(b"a file")


def has_folder(name):
    def made(box):
        folder(box)
        (box / "store" / name).mkdir()
    return made


def holding(**files):
    return lambda box: folder(box, **files)


# a title, what stands there, the form, its lines, the lines that must be written, what must stand in the folder then: its files, or nothing where no
# folder is, or None where that is not looked at
CASES = [
    ("put: no folder", nothing, put(), [SEND], ["ok 1 0"], {"o.json": b'["d","1"]'}),
    ("put: a folder without files", holding(), put(), [SEND], ["ok 1 0"], {"o.json": b'["d","1"]'}),
    ("put: over a file that is longer", holding(o_json=b"x" * 5000, k=b"kept"), put(), [SEND], ["ok 1 0"], {"o.json": b'["d","1"]', "k": b"kept"}),
    ("post", nothing, put(method="post"), [SEND], ["ok 1 0"], {"o.json": b'["d","1"]'}),
    ("put: no bytes", nothing, put(serialization="none"), [SEND], ["ok 1 0"], {"o.json": b""}),
    ("put: characters of several bytes", nothing, form({"resource": "o", "method": "put"}, data='ä "\\ \n \U0001d54f'), [SEND],
     ['note all "o" 0', "ok 1 0"], {"o": '["d","ä \\"\\\\ \\n \U0001d54f"]'.encode()}),
    ("put: a folder that is closed", closed, put(), [SEND], FAILED, {"o.json": b"old"}),
    ("put: the folder is a file", is_file, put(), [SEND], FAILED, b"a file"),
    ("put: the name is a folder", has_folder("o.json"), put(), [SEND], FAILED, None),
    ("put: a name that leads out", nothing, put("../out"), [SEND], FAILED, {}),
    ("put: a name with a point in front", nothing, put(".put"), [SEND], FAILED, {}),
    ("put: twice", nothing, put(), [SEND, SEND], ["ok 1 0", "ok 2 0"], {"o.json": b'["d","1"]'}),
    ("put: sixteen, and the event is refused", nothing, form({"resource": "o.json", "method": "put", "replace": "none"}, LOOP),
     ['["activate","x",[]]'], ["no E14 Sends"], {"o.json": b'["d","1"]'}),
    ("get: a text", holding(r_txt=b"hello"), get(), [SEND, '["show"]'], ["ok 1 0", "instance 1.1", TEXT % "hello", "end"], {"r.txt": b"hello"}),
    ("get: a text with a line feed at its end", holding(r_txt=b"hello\n"), get(), [SEND, '["show"]'], ["ok 1 0", "instance 1.1", TEXT % "hello\\n", "end"], {}),
    ("get: nothing stands there", holding(), get(), [SEND], FAILED, {}),
    ("get: no folder", nothing, get(), [SEND], FAILED, {}),
    ("get: it may not be read", unreadable, get(), [SEND], FAILED, None),
    ("get: a folder", has_folder("r.txt"), get(), [SEND], FAILED, None),
    ("get: the folder is a file", is_file, get(), [SEND], FAILED, b"a file"),
    ("get: an empty file", holding(r_txt=b""), get(), [SEND, '["show"]'], ["ok 1 0", "instance 1.1", TEXT % "1", "end"], {}),
    ("get: no UTF-8", holding(r_txt=b"\xff"), get(), [SEND], ['note message "parse-error"', "ok 1 0"], {}),
    ("get: as long as may be", holding(r_txt=b"y" * MOST), get(replace="all"), [SEND], ['note all "r.txt" %d' % MOST, "ok 1 0"], {}),
    ("get: a byte more", holding(r_txt=b"y" * (MOST + 1)), get(replace="all"), [SEND], FAILED, {}),
    ("get: much more", holding(r_txt=b"y" * (40 * MOST)), get(replace="all"), [SEND], FAILED, {}),
    ("get: a text that is too long for a node", holding(r_txt=b"y" * 65537), get(), [SEND], ["no E11 Limit text"], {}),
    ("get: a tree", holding(r_txt=b' ["d",\n ["e","2"]]\n'), get(replace="instance"), [SEND, '["show"]'],
     ["ok 1 0", "instance 1.1", "/d ew-v", '/d/e ew-v "2"', "end"], {}),
    ("get: no tree", holding(r_txt=b"hello"), get(replace="instance"), [SEND], ['note message "parse-error"', "ok 1 0"], {}),
]


def as_nobody():
    os.setgroups([])
    os.setgid(NOBODY)
    os.setuid(NOBODY)


def ran(program, box, lines, before=()):
    """What the program writes over a folder, and how it ends."""
    given = "".join(line + "\n" for line in lines).encode()
    done = subprocess.run([*before, str(program), "try"], cwd=box, input=given, stdout=subprocess.PIPE, timeout=100,
                          preexec_fn=as_nobody if os.getuid() == 0 else None)
    return done.stdout.decode().split("\n")[:-1], done.returncode


def owned(box):
    if os.getuid() == 0:
        for path in [box, *box.rglob("*")]:
            os.chown(path, NOBODY, NOBODY)


def prepared(box, fill, tree):
    fill(box)
    (box / "form.json").write_text(json.dumps(tree), encoding="utf-8")
    owned(box)


def files_in(store):
    """The files of a folder by their names, those of a folder that is none its bytes."""
    if store.is_file():
        return store.read_bytes()
    return {path.name: path.read_bytes() for path in store.iterdir() if path.is_file()} if store.is_dir() else {}


def differs(program, box, case):
    _, fill, tree, lines, want, files = case
    prepared(box, fill, tree)
    made = (box / "store").exists()
    got, status = ran(program, box, lines)
    if (got, status) != (want, 0):
        return "want %s, got %s (%d)" % (want, got, status)
    if not made and not files and (box / "store").exists():
        return "a folder was made"
    held = files_in(box / "store")
    if files and held != files:
        return "files: want %s, got %s" % (files, held)
    if (box.parent / "out").exists() or (box / "out").exists():
        return "a file was written outside the folder"
    return None


def calls_of_a_put(program, box):
    """The system's calls that concern the store, of one put, as words."""
    prepared(box, holding(), put())
    log = box / "calls"
    ran(program, box, [SEND], ["strace", "-o", str(log), "-y", "-e", "trace=openat,write,fsync,fdatasync,rename,mkdir"])
    told = []
    for line in log.read_text(encoding="utf-8").splitlines():
        name = line.split("(")[0]
        if re.search(r"store", line.replace(str(box), "")):
            told.append(name)
    return told


def main(program=TOP / "crates/xforms/out/xforms"):
    good = 0
    with tempfile.TemporaryDirectory() as top:
        os.chmod(top, 0o755)
        own = pathlib.Path(top) / "xforms"
        shutil.copy(program, own)
        own.chmod(0o755)
        for number, case in enumerate(CASES):
            box = pathlib.Path(top) / str(number)
            box.mkdir()
            told = differs(own, box, case)
            good += told is None
            if told is not None:
                print("%s: %s" % (case[0], told[:500]))
            if (box / "store").is_dir():
                (box / "store").chmod(0o755)
        print("%d of %d as they must be" % (good, len(CASES)))
        if shutil.which("strace"):
            box = pathlib.Path(top) / "calls"
            box.mkdir()
            told, want = calls_of_a_put(own, box), ["openat", "write", "fsync", "rename", "openat", "fsync"]
            print("the calls of a put: %s%s" % (" ".join(told), "" if told == want else ", and not " + " ".join(want)))
    return good != len(CASES)


if __name__ == "__main__":
    sys.exit(main(*sys.argv[1:]))
