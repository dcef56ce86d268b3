#!/usr/bin/env python3
"""Makes random forms with rows, choices, binds, types, handlers and submissions, a store and random lines for them, and compares what a program writes and puts
with what the definitions do.

    bench/definitions/random_forms.py PROGRAM [--seconds N] [--seed N] [--jobs N]

PROGRAM is the built program; each form is run in a folder of its own by `PROGRAM try`, with the files of its store in the folder `store`. A form that
differs is printed with its lines, its store and the first line that differs, and the status is 1 then. Forms are small, since the definitions know no time.
"""
import argparse
import json
import multiprocessing
import os
import random
import subprocess
import sys
import tempfile
import threading
import time

HERE = os.path.dirname(os.path.abspath(__file__))
sys.path.insert(0, HERE)
SPACES = {"xmlns:xf": "http://www.w3.org/2002/xforms", "xmlns:ev": "http://www.w3.org/2001/xml-events",
          "xmlns:xs": "http://www.w3.org/2001/XMLSchema", "xmlns:t": "urn:t"}
NAMES = ["a", "b", "c"]
TEXTS = ["", "0", "1", "2", "3", "p", "q", "p q", "yes", " 1 ", "2.50"]
EVENTS = ["DOMActivate", "xforms-value-changed", "xforms-insert", "xforms-delete", "xforms-ready", "xforms-select", "xforms-deselect", "xforms-disabled",
          "xforms-enabled", "xforms-valid", "xforms-readonly", "mine", "xforms-submit-done", "xforms-submit-error"]
RESOURCES = ["tree.json", "other.json", "text.txt", "empty", "bad.json", "new.json", "none.json", "../x", ".x"]


class Form:
    """A random form, as JSON, with what its lines may name."""

    def __init__(self, seed):
        self.dice = random.Random(seed)
        self.ids = {"control": [], "repeat": [], "case": [], "bind": [], "submission": [], "any": ["m"]}
        self.count, self.types = 0, ["integer"]
        for number in range(self.dice.choice([0, 1, 2, 3, 4])):
            self.ids["submission"].append("s%d" % number)
        self.ids["any"] += self.ids["submission"]
        self.repeats = ["r1", "r2", "r3"]
        body = [self.control(0, 0) for _ in range(self.dice.randint(2, 5))]
        if not self.ids["repeat"]:  # expressions and actions name the first one
            body.append(self.control(0, 0, "repeat"))
        data = ["d"] + [self.element(0) for _ in range(self.dice.randint(1, 4))]
        schemas = self.schemas()
        binds = [self.bind() for _ in range(self.dice.randint(0, 3))]
        acts = [self.handler() for _ in range(self.dice.randint(0, 2))]
        model = ["xf:model", {"id": "m"}, ["xf:instance", data], ["xf:instance", {"id": "i"}, ["e"] + [self.element(1) for _ in range(2)]]]
        sent = [self.submission(name) for name in self.ids["submission"]]
        self.json = ["f", SPACES, model + schemas + binds + sent + acts] + body
        self.lines = [self.line() for _ in range(self.dice.randint(3, 9))] + ['["show"]']
        self.store = {"tree.json": json.dumps(["d"] + [self.element(0) for _ in range(self.dice.randint(0, 3))]), "other.json": json.dumps(self.element(1)),
                      "text.txt": self.dice.choice(["1", "p q", "\u00e4", " "]), "empty": "",
                      "bad.json": self.dice.choice(["hello", '["q:a"]', '["a",{"xmlns":"urn:x"}]', '{"a":1}', '["a"', '["xf:a",{"ev:x":"1"},["b"]]'])}

    def element(self, depth):
        dice = self.dice
        attributes = [{"x": dice.choice(TEXTS)}] if dice.random() < 0.3 else []
        if depth < 2 and dice.random() < 0.5:
            return [dice.choice(NAMES)] + attributes + [self.element(depth + 1) for _ in range(dice.randint(1, 3))]
        text = dice.choice(TEXTS)
        return [dice.choice(NAMES)] + attributes + ([text] if text else [])

    def path(self):
        dice = self.dice
        return dice.choice(["a", "b", "c", "*", ".", "a/b", "../b", "@x", "//c", "a[1]", "b[last()]", "/d/a", "/d/*", "*/*", "../*[1]", "instance('i')/a"])

    def moving(self):
        """A path that need not be static."""
        dice = self.dice
        return dice.choice([self.path(), self.path(), "a[. = 1]", "/d/a[index('r1')]", "/d/*[position() = index('r2')]", "b[@x]", "*[. > 0]"])

    def value(self):
        dice = self.dice
        return dice.choice(["count(*)", "1 + count(//a)", "sum(//b)", "concat(name(), position(), last())", "'p'", "string(.)", "../a", "index('r1')",
                            "concat(index('r1'), index('r2'))", "if(. = 1, 'q', '2')", ". + 1", "event('position')"])

    def static(self):
        return self.dice.choice(["count(../a)", "../b", "string(../a)", "1", "concat(../@x, 'p')", ". != ''", "../a = 1", "true()", "false()", "position() = 1",
                                 "../b > 0"])

    def schemas(self):
        """A schema with one or two types by restriction, or none."""
        dice = self.dice
        if dice.random() < 0.5:
            return []
        made = []
        for name in ("one", "two")[:dice.randint(1, 2)]:
            bases = ["xs:integer", "xf:integer", "xs:decimal", "xf:decimal", "xs:string", "xf:string", "xf:token"] + (["t:one"] if made else [])
            base = dice.choice(bases)
            of_numbers = base.endswith(("integer", "decimal")) or (base == "t:one" and made[0][2][1]["base"].endswith(("integer", "decimal")))
            if of_numbers:
                kinds = [("minInclusive", "1"), ("maxInclusive", "2.0"), ("minExclusive", "0"), ("maxExclusive", "3"), ("totalDigits", "1"), ("fractionDigits", "1"),
                         ("enumeration", "1.0"), ("enumeration", "2")]
            else:
                kinds = [("length", "1"), ("minLength", "1"), ("maxLength", "2"), ("enumeration", "p"), ("enumeration", "p q"), ("whiteSpace", "collapse")]
            facets = [["xs:" + kind, {"value": value}] for kind, value in dice.sample(kinds, dice.randint(0, 3))]
            made.append(["xs:simpleType", {"name": name}, ["xs:restriction", {"base": base}] + facets])
            self.types.append("t:" + name)
        return [["xs:schema", {"targetNamespace": "urn:t"}] + made]

    def bind(self):
        dice = self.dice
        kinds = dice.sample(["relevant", "readonly", "required", "constraint", "type", "calculate"], dice.randint(1, 2))
        nodeset = dice.choice(["a", "b", "//c", "*", "a/b", "@x", "b[1]", "instance('i')/*"])
        name = "b%d" % len(self.ids["bind"])
        self.ids["bind"].append(name)
        self.ids["any"].append(name)
        return ["xf:bind", dict([("id", name), ("nodeset", nodeset)] + [(k, dice.choice(self.types) if k == "type" else self.static()) for k in kinds])]

    def submission(self, name):
        dice = self.dice
        made = {"id": name, "resource": dice.choice(RESOURCES), "method": dice.choice(["put", "get", "get", "post"])}
        if dice.random() < 0.3:
            made["ref"] = self.moving()
        elif self.ids["bind"] and dice.random() < 0.2:
            made["bind"] = dice.choice(self.ids["bind"])
        if dice.random() < 0.8:
            made["replace"] = dice.choice(["all", "instance", "instance", "text", "none"])
        if dice.random() < 0.3:
            made["instance"] = "i"
        if dice.random() < 0.4:
            made["targetref"] = self.moving()
        if dice.random() < 0.3:
            made["serialization"] = "none"
        for attribute in ("relevant", "validate"):
            if dice.random() < 0.2:
                made[attribute] = dice.choice(["true", "false"])
        told = [["xf:message", {"ev:event": event}, ["xf:output", {"value": "concat(event('resource-uri'), ' ', event('error-type'), ' ', name())"}]]
                for event in ("xforms-submit-done", "xforms-submit-error") if dice.random() < 0.6]
        return ["xf:submission", made] + told + [self.handler() for _ in range(dice.choice([0, 0, 0, 1]))]

    def named(self, kind):
        self.count += 1
        name = "k%d" % self.count
        self.ids[kind].append(name)
        self.ids["any"].append(name)
        return name

    def labels(self):
        return [["xf:label", self.dice.choice(["L", "M"])]]

    def item(self):
        dice = self.dice
        if dice.random() < 0.4:
            return ["xf:itemset", {"nodeset": self.moving()}, ["xf:label", {"ref": dice.choice([".", "@x"])}], ["xf:value", {"ref": "."}]]
        value = ["xf:value", dice.choice(["p", "q", "1", "2"])] if dice.random() < 0.8 else ["xf:value", {"value": self.value()}]
        return ["xf:item", ["xf:label", "I", ["xf:output", {"value": self.value()}]], value]

    def control(self, depth, inside, sort=None):
        dice = self.dice
        sort = sort or dice.choice(["input", "input", "output", "select1", "select", "trigger", "trigger", "submit", "group", "repeat", "repeat", "switch"] if depth < 3
                           else ["input", "output", "trigger", "select1"])
        acts = [self.handler() for _ in range(dice.choice([0, 0, 1]))]
        if sort == "repeat" and self.repeats:
            name = self.repeats.pop(0)
            self.ids["repeat"].append(name)
            self.ids["any"].append(name)
            start = {"startindex": str(dice.randint(1, 3))} if dice.random() < 0.3 else {}
            return ["xf:repeat", dict({"id": name, "nodeset": self.moving()}, **start)] + [self.control(depth + 1, inside + 1) for _ in range(dice.randint(1, 3))] + acts
        if sort == "group" or sort == "repeat":
            binding = {"ref": self.moving()} if dice.random() < 0.5 else {}
            return ["xf:group", dict({"id": self.named("control")}, **binding)] + [self.control(depth + 1, inside) for _ in range(dice.randint(1, 2))] + acts
        if sort == "switch":
            cases = []
            for _ in range(dice.randint(1, 3)):
                chosen = {"selected": dice.choice(["true", "false"])} if dice.random() < 0.3 else {}
                cases.append(["xf:case", dict({"id": self.named("case")}, **chosen)] + [self.control(depth + 1, inside) for _ in range(dice.randint(1, 2))]
                             + [self.handler() for _ in range(dice.choice([0, 1]))])
            return ["xf:switch", {"id": self.named("control")}] + cases
        if sort == "output" and dice.random() < 0.6:
            return ["xf:output", {"id": self.named("control"), "value": self.value()}]
        if sort == "submit":
            means = {"submission": dice.choice(self.ids["submission"])} if self.ids["submission"] and dice.random() < 0.8 else {}
            binding = {"ref": self.moving()} if dice.random() < 0.2 else {}
            return ["xf:submit", dict({"id": self.named("control")}, **means, **binding)] + self.labels() + acts
        if sort == "trigger":
            return ["xf:trigger", {"id": self.named("control")}] + self.labels() + [self.handler("DOMActivate") for _ in range(dice.randint(1, 2))]
        more = [self.item() for _ in range(dice.randint(1, 3))] if sort.startswith("select") else []
        free = {"selection": "open"} if more and dice.random() < 0.2 else {}
        return ["xf:" + sort, dict({"id": self.named("control"), "ref": self.moving()}, **free)] + more + acts

    def handler(self, event=None):
        action = self.action(0)
        action[1]["ev:event"] = event or self.dice.choice(EVENTS)
        return action

    def action(self, depth):
        dice = self.dice
        sort = dice.choice(["setvalue", "insert", "delete", "setindex", "toggle", "message", "dispatch", "reset", "action", "setvalue", "setindex",
                            "send"])
        known = {"if": dice.choice(["true()", "count(*) < 4", ". != 'p'", "index('r1') > 1"])} if dice.random() < 0.2 else {}
        if sort == "setvalue":
            return ["xf:setvalue", dict({"ref": self.moving(), "value": self.value()}, **known)]
        if sort == "insert":
            more = {"at": dice.choice(["1", "last()", "index('r1')"])} if dice.random() < 0.5 else {}
            more.update({"position": "before"} if dice.random() < 0.3 else {})
            more.update({"origin": self.moving()} if dice.random() < 0.4 else {})
            return ["xf:insert", dict({"nodeset": self.moving()}, **more, **known)]
        if sort == "delete":
            more = {"at": dice.choice(["1", "last()", "index('r1')"])} if dice.random() < 0.6 else {}
            return ["xf:delete", dict({"nodeset": self.moving()}, **more, **known)]
        if sort == "setindex":
            return ["xf:setindex", dict({"repeat": "r1", "index": dice.choice(["1", "2", "index('r1') + 1", "0", "'x'", "1.5"])}, **known)]
        if sort == "toggle" and self.ids["case"]:
            return ["xf:toggle", dict({"case": dice.choice(self.ids["case"])}, **known)]
        if sort == "send":
            means = {"submission": dice.choice(self.ids["submission"])} if self.ids["submission"] and dice.random() < 0.8 else {}
            return ["xf:send", dict(means, **known)]
        if sort == "dispatch":
            return ["xf:dispatch", dict({"name": dice.choice(["mine", "DOMActivate"]), "targetid": "m"}, **known)]
        if sort == "reset":
            return ["xf:reset", dict(known)]
        if sort == "action" and depth < 2:
            return ["xf:action", dict(known)] + [self.action(depth + 1) for _ in range(dice.randint(1, 3))]
        return ["xf:message", dict(known), "n", ["xf:output", {"value": self.value()}]]

    def rows(self):
        return [self.dice.choice([1, 1, 1, 2, 2, 3, 0]) for _ in range(self.dice.choice([0, 0, 1, 1, 1, 2]))]

    def line(self):
        dice = self.dice
        sort = dice.choice(["set", "set", "set", "activate", "activate", "index", "dispatch", "reset", "show"] + ["send"] * (5 if self.ids["submission"] else 0))
        control = dice.choice(self.ids["control"] or ["m"])
        made = {"set": ["set", control, self.rows(), dice.choice(TEXTS)], "activate": ["activate", control, self.rows()],
                "index": ["index", dice.choice(["r1", "r2", "r3"]), dice.randint(0, 4)], "dispatch": ["dispatch", dice.choice(["mine", "xforms-reset", "xforms-submit"]), dice.choice(self.ids["any"])],
                "send": ["send", dice.choice((self.ids["submission"] or ["m"]) + (["m"] if dice.random() < 0.1 else []))],
                "reset": ["reset", dice.choice(["", "m"])], "show": ["show"]}[sort]
        return json.dumps(made)


def written_by(program, form):
    """The lines that the program writes, and what stands in the store then."""
    with tempfile.TemporaryDirectory() as box:
        with open(os.path.join(box, "form.json"), "w", encoding="utf-8") as file:
            json.dump(form.json, file)
        store = os.path.join(box, "store")
        os.mkdir(store)
        for name, text in form.store.items():
            with open(os.path.join(store, name), "w", encoding="utf-8") as file:
                file.write(text)
        done = subprocess.run([program, "try"], cwd=box, input="".join(line + "\n" for line in form.lines).encode(), stdout=subprocess.PIPE,
                              stderr=subprocess.DEVNULL, timeout=100)
        held = {}
        for name in os.listdir(store):
            with open(os.path.join(store, name), encoding="utf-8") as file:
                held[name] = file.read()
        return done.stdout.decode().split("\n")[:-1], held


def difference(program, seed):
    """None where both agree or the definitions' loader refuses the form; else what differs."""
    import run
    form = Form(seed)
    got, held = written_by(program, form)
    if got and got[0].startswith("form F") and not got[0].startswith(("form F14", "form F15", "form F16", "form F17", "form F18")):
        return "refused"
    if any("E12 Budget" in line for line in got):
        raise RuntimeError("an event takes more turns than the definitions have time for")
    played = run.Played(PROFILE, {"form": form.json, "store": form.store})
    if played.refused is not None:
        texts, want = [[line] for line in played.refused], None
        same = run.plain(got) in run.plain([t[0] for t in texts]) or any(run.plain(got) == run.plain(t) for t in texts)
        return None if same else (form, "want %s, got %s" % (played.refused, got[:3]))
    at = len(played.start)
    if got[:at] != played.start:
        return form, "start: want %s, got %s" % (played.start, got[:at + 1])
    for line in form.lines:
        options = played.replies(line)
        fits = [t for t in options if run.plain(got[at:at + len(t)]) == run.plain(t)]
        if not fits:
            return form, "%s: %s" % (line, run.difference(options[0], got[at:at + len(options[0])]))
        at += len(fits[0])
    if at != len(got):
        return form, "more lines: %s" % got[at:at + 2]
    want = {name: bytes(text).decode() for name, text in played.store.items()}
    return None if held == want else (form, "store: want %s, got %s" % (want, held))


def tried(job):
    program, seed = job
    told = []

    def work():
        import kept
        kept.clear()
        try:
            told.append(difference(program, seed))
        except Exception as why:  # what the definitions do not cover, or a loop that is too long for them
            told.append("%s: %s" % (type(why).__name__, why))

    thread = threading.Thread(target=work)
    thread.start()
    thread.join()
    return seed, told[0]


def main():
    global PROFILE
    parser = argparse.ArgumentParser(description=__doc__, formatter_class=argparse.RawDescriptionHelpFormatter)
    parser.add_argument("program")
    parser.add_argument("--seconds", type=int, default=60)
    parser.add_argument("--seed", type=int, default=1)
    parser.add_argument("--jobs", type=int, default=2)
    given = parser.parse_args()
    import run
    PROFILE = run.prepare(50000)
    program, end = os.path.abspath(given.program), time.time() + given.seconds
    same = refused = unknown = 0
    differ = []
    with multiprocessing.Pool(given.jobs, maxtasksperchild=50) as pool:
        for seed, told in pool.imap(tried, ((program, given.seed + k) for k in range(10 ** 9)), chunksize=1):
            if told is None:
                same += 1
            elif told == "refused":
                refused += 1
            elif isinstance(told, str):
                unknown += 1
                print("seed %d: %s" % (seed, told[:200]))
            else:
                differ.append(seed)
                print("seed %d: %s\n%s\n%s\n%s\n" % (seed, told[1], json.dumps(told[0].json), "\n".join(told[0].lines), json.dumps(told[0].store)))
            if time.time() > end:
                pool.terminate()
                break
    print("%d alike, %d refused as they are read, %d not tried, %d differ" % (same, refused, unknown, len(differ)))
    return bool(differ)


if __name__ == "__main__":
    sys.exit(main())
