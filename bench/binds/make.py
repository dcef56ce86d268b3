"""Writes into a folder form.json, a form of one shape with so many calculates, and events, lines that each set the text that its calculates
go back to.

Usage: make.py FOLDER SHAPE COUNT LINES

rows    COUNT rows with `../qty * ../price`, and a sum over all
chain   COUNT nodes, each one more than the one before
fan     COUNT nodes that all read one
binds   COUNT binds, each of one node that reads the one before
nested  COUNT nodes under binds in a bind, ten times as many binds' node sets as there are nodes in one"""
import json
import sys

folder, shape, count, lines = sys.argv[1], sys.argv[2], int(sys.argv[3]), int(sys.argv[4])


def bind(nodes, calculate=None, *inner):
    return ["xf:bind", {"nodeset": nodes, **({"calculate": calculate} if calculate else {})}, *inner]


def rows():
    data = [*(["item", ["qty", "2"], ["price", "3.5"], ["sum"]] for _ in range(count)), ["total"]]
    return data, [bind("item/sum", "../qty * ../price"), bind("total", "sum(../item/sum)")], "item[1]/qty"


def chain():
    return [["first", "1"], *(["c"] for _ in range(count))], [bind("c[1]", "../first + 1"), bind("c[position() > 1]", "preceding-sibling::c[1] + 1")], "first"


def fan():
    return [["rate", "2"], *(["item", "3"] for _ in range(count))], [bind("item", "../rate * 2")], "rate"


def binds():
    names = [f"f{at}" for at in range(count)]
    return [["first", "1"], *([name] for name in names)], [bind(name, f"../{before} + 1") for before, name in zip(["first", *names], names)], "first"


def nested():
    side = round(count**0.5)
    data = [["rate", "2"], *(["r", *(["c"] for _ in range(side))] for _ in range(side))]
    return data, [bind("r", None, bind("c", "../../rate + position()"))], "rate"


data, model, ref = {"rows": rows, "chain": chain, "fan": fan, "binds": binds, "nested": nested}[shape]()
form = ["f", {"xmlns:xf": "http://www.w3.org/2002/xforms"}, ["xf:model", ["xf:instance", ["d", *data]], *model], ["xf:input", {"id": "i", "ref": ref}]]
with open(f"{folder}/form.json", "w") as out:
    json.dump(form, out, separators=(",", ":"))
with open(f"{folder}/events", "w") as out:
    for line in range(lines):
        out.write(json.dumps(["set", "i", [], str(line % 89 + 3)], separators=(",", ":")) + "\n")
