"""Writes forms at their limits, each a folder with form.json, events and perhaps a store: what is longest, deepest or nested most.

Usage: make.py FOLDER
"""
import json
import pathlib
import sys

TOP = pathlib.Path(sys.argv[1])
XFORMS = "http://www.w3.org/2002/xforms"
EVENTS = "http://www.w3.org/2001/xml-events"
SCHEMA = "http://www.w3.org/2001/XMLSchema"
FORM_LIMIT = 1048576


def form(*parts):
    """A form whose elements without a prefix are those of XForms."""
    return ["h:f", {"xmlns": XFORMS, "xmlns:h": "host", "xmlns:ev": EVENTS, "xmlns:s": SCHEMA, "xmlns:t": "types"}, *parts]


def document(*parts, name="d"):
    """The document element of an instance, in no namespace."""
    return [name, {"xmlns": ""}, *parts]


def on(event, **attributes):
    """The attributes of a handler of an event."""
    return {"ev:event": event, **attributes}


def nest(times, outer, inner):
    """An element inside so many others."""
    for k in reversed(range(times)):
        inner = outer(k, inner)
    return inner


def fill(make, most=10**9, room=FORM_LIMIT - 4096):
    """As many parts as a form has room for."""
    parts, size = [], 0
    while len(parts) < most:
        part = make(len(parts))
        size += len(json.dumps(part, separators=(",", ":"))) + 1
        if size > room:
            break
        parts.append(part)
    return parts


def typed(*types):
    """A model whose first node is of the last type of the form, and an input on it."""
    return form(
        ["model", ["instance", document(["a", "1"])], ["s:schema", {"targetNamespace": "types"}, *types],
         ["bind", {"nodeset": "a", "type": "t:last"}]],
        ["input", {"id": "a", "ref": "a"}])


def restricted(*facets, name="last", base="s:string"):
    return ["s:simpleType", {"name": name}, ["s:restriction", {"base": base}, *facets]]


CASES = {}


def case(name, form, *events, store=None):
    CASES[name] = form, events, store or {}


# ---- lists

rows = fill(lambda k: ["r", "x"], most=32700)
sent = {"id": "s", "resource": "kept", "method": "put", "replace": "none"}
case("rows_put", form(["model", ["instance", document(*rows)], ["submission", sent]]), ["send", "s"])
counted = [["message", on(f"xforms-{what}"), ["output", {"value": f"count(event('{of}'))"}]]
           for what, of in (("insert", "inserted-nodes"), ("insert", "origin-nodes"), ("delete", "deleted-nodes"))]
case("rows_inserted",
     form(["model", {"id": "m"}, ["instance", document()], ["instance", {"id": "o"}, document(*fill(lambda k: ["r"], most=32000))],
           ["insert", on("go", context=".", nodeset="r", origin="instance('o')/r")], *counted],
          ["repeat", {"id": "rows", "nodeset": "r[last()]"}, ["input", {"id": "i", "ref": "."}]]),
     ["dispatch", "go", "m"])
case("rows_deleted",
     form(["model", {"id": "m"}, ["instance", document(*fill(lambda k: ["r"], most=8000))], ["delete", on("go", nodeset="r")], *counted],
          ["repeat", {"id": "rows", "nodeset": "r"}, ["input", {"id": "i", "ref": "."}]]),
     ["index", "rows", 8000], ["dispatch", "go", "m"])
case("rows_summed",
     form(["model", ["instance", document(*fill(lambda k: ["r", "1"], most=32000), ["total"])], ["bind", {"nodeset": "total", "calculate": "sum(../r)"}],
           ["bind", {"nodeset": "r", "required": "true()", "constraint": ". = 1 or . = 2"}]],
          ["repeat", {"id": "rows", "nodeset": "r[position() < 2000]"}, ["input", {"id": "i", "ref": "."}]]),
     ["set", "i", [1], "2"], ["index", "rows", 1999])
case("attributes",
     form(["model", ["instance", ["d", {"xmlns": "", **{f"a{k}": "1" for k in range(60000)}}]], ["bind", {"nodeset": "@*", "constraint": ". = 1"}],
           ["submission", sent]], ["output", {"id": "o", "value": "sum(@*)"}]), ["send", "s"])
case("enumerations", typed(restricted(*fill(lambda k: ["s:enumeration", {"value": f"{k}"}]))), ["set", "a", [], "1"], ["set", "a", [], "no"])
case("enumerations_of_numbers",
     typed(restricted(*fill(lambda k: ["s:enumeration", {"value": f"{k}"}]), base="s:decimal")), ["set", "a", [], "20000"], ["set", "a", [], "no"])
case("lengths", typed(restricted(*fill(lambda k: ["s:length", {"value": "1"}]))), ["set", "a", [], "1"], ["set", "a", [], "no"])
case("spaces", typed(restricted(*fill(lambda k: ["s:whiteSpace", {"value": "collapse"}]))), ["set", "a", [], " 1 "])
digits = "1" * 500000
case("digits", typed(restricted(["s:minInclusive", {"value": digits}], ["s:maxInclusive", {"value": digits}], base="s:decimal")),
     ["set", "a", [], "1" * 65000], ["set", "a", [], "0." + "1" * 65000])
chain = fill(lambda k: restricted(name=f"t{k}", base=f"t:t{k + 1}"), most=9000)
case("types_in_a_chain", typed(*chain, restricted(name=f"t{len(chain)}"), restricted(base="t:t0")), ["set", "a", [], "1"])
chain = fill(lambda k: restricted(["s:whiteSpace", {"value": "collapse"}], name=f"t{k}", base=f"t:t{k + 1}"), most=6000)
case("types_with_facets_in_a_chain", typed(*chain, restricted(name=f"t{len(chain)}"), restricted(base="t:t0")), ["set", "a", [], " 1 "])
one = ["model", ["instance", document(["a", "1"])]]
items = fill(lambda k: ["item", ["label", "l"], ["value", f"{k}"]])
case("items", form(one, ["select1", {"id": "a", "ref": "a", "selection": "closed"}, *items]),
     ["set", "a", [], f"{len(items) - 1}"], ["set", "a", [], "no"])
case("items_and_words", form(one, ["select", {"id": "a", "ref": "a", "selection": "closed"}, *items[:2000]]),
     ["set", "a", [], "1 " * 32000], ["set", "a", [], "1999 " * 12000])
case("parts_of_an_item", form(one, ["select1", {"id": "a", "ref": "a"}, ["item", *fill(lambda k: ["extension"]), ["label", "l"], ["value", "v"]]]),
     ["set", "a", [], "v"])
case("nodes_of_an_item_set",
     form(["model", ["instance", document(["a"], *fill(lambda k: ["r", "x"], most=20000))]],
          ["select", {"id": "a", "ref": "a"}, ["itemset", {"nodeset": "../r"}, ["label", {"ref": "."}], ["value", {"ref": "."}]]]),
     ["set", "a", [], "x"])
toggle = ["trigger", {"id": "t"}, ["toggle", on("DOMActivate", case="last")]]
case("cases", form(one, ["switch", {"id": "s"}, *[["case"] for _ in range(4000)], ["case", {"id": "last"}]], toggle), ["activate", "t", []])
case("parts_of_a_switch", form(one, ["switch", {"id": "s"}, *fill(lambda k: ["extension"], room=FORM_LIMIT - 9000), ["case"], ["case", {"id": "last"}]], toggle),
     ["activate", "t", []])
case("switches", form(one, *[["switch", ["case"]] for _ in range(2000)], ["switch", ["case"], ["case", {"id": "last"}]], toggle), ["activate", "t", []])
case("instances",
     form(["model", *[["instance", {"id": f"i{k}"}, document(["a", "1"])] for k in range(64)],
           ["bind", {"nodeset": "a", "calculate": "instance('i63')/a + instance('i1')/a"}]],
          ["output", {"id": "o", "value": "instance('i63')/a"}]), ["dispatch", "go", "o"])
case("models", form(*[["model", {"id": f"m{k}"}, ["instance", document(["a", "1"])]] for k in range(16)], ["input", {"id": "a", "ref": "a", "model": "m15"}]),
     ["set", "a", [], "2"], ["reset", "m15"])
case("calculates",
     form(["model", ["instance", document(*[[f"c{k}", "1"] for k in range(4096)])],
           *[["bind", {"nodeset": f"c{k}", "calculate": f"../c{k + 1} + 1"}] for k in range(4095)]],
          ["input", {"id": "a", "ref": "c4095"}]), ["set", "a", [], "2"])
case("repeats", form(one, *[["repeat", {"nodeset": ".."}] for _ in range(4000)], ["repeat", {"id": "last", "nodeset": ".."}]), ["index", "last", 1])
case("handlers", form(one, ["trigger", {"id": "t"}, *fill(lambda k: ["message", on("DOMActivate"), "m"])]), ["activate", "t", []])
case("actions", form(one, ["trigger", {"id": "t"}, ["action", on("DOMActivate"), *fill(lambda k: ["setvalue", {"ref": "a"}], most=20000)]]), ["activate", "t", []])
case("inputs", form(one, *[["input", {"id": f"i{k}", "ref": "../a"}, ["message", on("xforms-value-changed"), "m"]] for k in range(4000)]), ["set", "i0", [], "2"])
case("prefixes", ["h:f", {"xmlns": XFORMS, "xmlns:h": "host", **{f"xmlns:p{k}": f"n{k % 200}" for k in range(32000)}}, one, ["input", {"id": "a", "ref": "a"}]],
     ["set", "a", [], "2"])
case("host_elements", form(one, *fill(lambda k: ["h:p"]), ["input", {"id": "a", "ref": "a"}]), ["set", "a", [], "2"])
case("numbers_of_rows", form(one, ["repeat", {"id": "rows", "nodeset": ".."}, ["input", {"id": "a", "ref": "a"}]]), ["set", "a", [1] * 30000, "2"])
case("a_long_text", form(["model", ["instance", document(["a", "x" * 65000])]], ["input", {"id": "a", "ref": "a"}],
                         ["output", {"id": "o", "value": "translate(normalize-space(concat(a, a, a, a, a)), 'x', 'y')"}]),
     ["set", "a", [], "x " * 30000])

# ---- what stands one in another

inner = ["input", {"id": "a", "ref": "a"}, ["message", on("xforms-value-changed"), "m"]]
heard = [["message", on("DOMActivate", **{"ev:phase": "capture"}), "c"], ["message", on("DOMActivate"), "b"]]
deep = 120
case("groups", form(one, nest(deep, lambda k, x: ["group", x], inner)), ["set", "a", [], "2"])
case("groups_that_bind", form(one, nest(deep, lambda k, x: ["group", {"ref": "."}, x], inner)), ["set", "a", [], "2"])
case("groups_that_hear", form(one, nest(deep, lambda k, x: ["group", *heard, x], ["trigger", {"id": "t"}, *heard])), ["activate", "t", []])
case("switches_in_cases", form(one, nest(deep // 2, lambda k, x: ["switch", ["case", x]], inner)), ["set", "a", [], "2"])
case("hosts", form(one, nest(deep, lambda k, x: ["h:p", x], inner)), ["set", "a", [], "2"])
case("repeats_in_repeats",
     form(["model", ["instance", document(nest(90, lambda k, x: ["r", x], ["a", "1"]))]],
          nest(90, lambda k, x: ["repeat", {"id": f"r{k}", "nodeset": "r"}, x], inner)),
     ["set", "a", [1] * 90, "2"], ["index", "r89", 1])
case("binds_in_binds",
     form(["model", ["instance", document(nest(95, lambda k, x: ["r", x], ["a", "1"]))], nest(95, lambda k, x: ["bind", {"nodeset": "r"}, x],
           ["bind", {"id": "b", "nodeset": "a", "constraint": ". > 0"}])], ["input", {"id": "a", "bind": "b"}]),
     ["set", "a", [], "2"])
case("binds_at_one_node",
     form(["model", ["instance", document(["a", "1"])], nest(deep, lambda k, x: ["bind", {"nodeset": "."}, x],
           ["bind", {"id": "b", "nodeset": "a", "calculate": "2"}])], ["output", {"id": "a", "bind": "b"}]),
     ["dispatch", "go", "a"])
case("elements_of_data",
     form(["model", ["instance", document(nest(98, lambda k, x: ["r", x], ["a", "1"]))], ["bind", {"nodeset": "//a", "calculate": "count(ancestor::*)"}],
           ["submission", sent]], ["output", {"id": "o", "value": "count(//a/ancestor-or-self::*)"}]),
     ["send", "s"])
case("choices", form(one, ["select1", {"id": "a", "ref": "a"}, nest(deep, lambda k, x: ["choices", x], ["item", ["label", "l"], ["value", "v"]])]),
     ["set", "a", [], "v"])
case("words", form(one, ["trigger", {"id": "t"}, ["message", on("DOMActivate"), nest(deep, lambda k, x: ["h:b", "w", x], "w")]]), ["activate", "t", []])
case("labels", form(one, ["input", {"id": "a", "ref": "a"}, ["label", nest(deep, lambda k, x: ["h:b", "w", x], ["output", {"ref": "."}])]]), ["set", "a", [], "2"])
last = ["setvalue", {"ref": "a", "value": "a + 1"}]
case("actions_in_actions", form(one, ["trigger", {"id": "t"}, ["action", on("DOMActivate"), nest(deep, lambda k, x: ["action", x], last)]]), ["activate", "t", []])
again = ["dispatch", {"name": "again", "targetid": "t"}]
case("dispatches", form(one, ["trigger", {"id": "t"}, ["dispatch", on("again", name="again", targetid="t")]]), ["dispatch", "again", "t"])
case("dispatches_in_actions",
     form(one, ["trigger", {"id": "t"}, ["action", on("again"), nest(deep, lambda k, x: ["action", {"if": "true()"}, x], again)]]), ["dispatch", "again", "t"])
case("dispatches_in_loops",
     form(one, ["trigger", {"id": "t"}, ["action", on("again"), nest(50, lambda k, x: ["action", {"while": "true()"}, x], again)]]), ["dispatch", "again", "t"])
case("dispatches_in_groups",
     form(one, nest(deep - 4, lambda k, x: ["group", ["message", on("again", **{"ev:phase": "capture"}), "c"], x],
                    ["trigger", {"id": "t"}, ["action", on("again"), again]])), ["dispatch", "again", "t"])
case("sends_in_sends",
     form(["model", ["instance", document(["a", "1"])], ["submission", {"id": "s", "resource": "kept", "method": "put", "replace": "none"},
           ["send", on("xforms-submit", submission="s")], ["send", on("xforms-submit-done", submission="s")],
           ["send", on("xforms-submit-error", submission="s")]]]), ["send", "s"])
case("inserts_in_inserts",
     form(["model", {"id": "m"}, ["instance", document(["r", "1"])], ["insert", on("xforms-insert", nodeset="/d/r")], ["insert", on("go", nodeset="r")]]),
     ["dispatch", "go", "m"])
case("changes_in_changes",
     form(one, ["input", {"id": "a", "ref": "a"}, ["action", on("xforms-value-changed"), ["setvalue", {"ref": ".", "value": ". + 1"}], ["refresh"]]]),
     ["set", "a", [], "2"])

# ---- expressions


def expression(name, text, is_static=True):
    assert len(text) <= 4096, name
    binds = [["bind", {"nodeset": "b", "calculate": text}], ["bind", {"nodeset": "c", "relevant": text}]] if is_static else []
    case(f"expression_{name}",
         form(["model", ["instance", document(["a", "1"], ["b"], ["c"])], *binds],
              ["input", {"id": "a", "ref": "a"}], ["output", {"id": "o", "value": text}], ["input", {"id": "c", "ref": text}],
              ["repeat", {"id": "rows", "nodeset": text}, ["output", {"value": text}]],
              ["trigger", {"id": "t"}, ["action", on("DOMActivate", **{"if": text}), ["setvalue", {"ref": "a", "value": text}], ["insert", {"nodeset": "a", "at": text}]]]),
         ["set", "a", [], "2"], ["activate", "t", []])


for most in 60, 63:
    expression(f"brackets_{most}", "(" * most + "/d/a" + ")" * most)
    expression(f"calls_{most}", "number(" * most + "/d/a" + ")" * most)
    expression(f"truths_{most}", "not(" * most + "/d/a" + ")" * most)
    expression(f"choices_{most}", "if(true(), " * (most - 1) + "1" + ", 2)" * (most - 1))
    expression(f"predicates_{most}", "/d/c[" * most + "true()" + "]" * most, is_static=False)
    expression(f"predicates_of_brackets_{most}", "(/d/c)[" * (most // 2) + "true()" + "]" * (most // 2), is_static=False)
    expression(f"steps_of_brackets_{most}", "(" * most + "/d/a" + "/../a)" * most)
    expression(f"texts_{most}", "concat('x', " * most + "/d/a" + ")" * most)
    expression(f"sums_{most}", "1 + (" * most + "/d/a" + ")" * most)
    expression(f"signs_{most}", "-" * most + "1")
    expression(f"all_{most}", "-(concat(/d/c[" * (most // 4) + "1" + "], 'x') + 1)" * (most // 4), is_static=False)
expression("links", "1" + "+1" * 1900)
expression("unions", "/d/a" + "|/d/a" * 800)
expression("steps", "/d/a" + "/../a" * 800)
expression("filters", "/d/a" + "[1]" * 1300)
expression("arguments", "concat(" + ",".join(["1"] * 200) + ")")
expression("comparisons", "1" + " = 1" * 1000)
expression("ands", "1" + " and 1" * 650)

# ---- lines

case("lines", form(one, ["input", {"id": "a", "ref": "a"}]),
     "[" * 127 + "]" * 127, "[" * 30000, "[" * 30000 + "]" * 30000, '{"a":' * 10000, ["set", "a", [], "2"])
long = "[" + ",".join(["1"] * 32000) + "]"
case("numbers_in_a_line", form(one, ["input", {"id": "a", "ref": "a"}]), long, f'["set","a",{long[:60000]}],"2"]', ["set", "a", [], "2"])
case("events", form(one, ["input", {"id": "a", "ref": "a"}]), *[["set", "a", [], f"{k}"] for k in range(300)])

# ---- answers of a store

found = json.dumps(["d", *fill(lambda k: ["r", "x"], most=30000)], separators=(",", ":"))
got = {"id": "s", "resource": "kept", "method": "get", "replace": "instance"}
case("an_answer_of_rows", form(["model", ["instance", document(["a"])], ["submission", got]], ["repeat", {"id": "rows", "nodeset": "r"}]), ["send", "s"], store={"kept": found})
for k, depth in enumerate((98, 126, 100000)):
    case(f"an_answer_in_depth_{k}", form(["model", ["instance", document(["a"])], ["submission", got]]), ["send", "s"],
         store={"kept": '["r",' * depth + '["a"]' + "]" * depth})

# ---- forms that are refused

for name, text in {"brackets": "[" * 500000, "elements": '["a",' * 100000, "objects": '{"a":' * 100000}.items():
    CASES[f"refused_{name}"] = text, (["show"],), {}
case("refused_rings", typed(*[restricted(name=f"t{k}", base=f"t:t{(k + 1) % 9000}") for k in range(9000)], restricted(base="t:t0")), ["show"])
case("refused_depth", form(nest(130, lambda k, x: ["group", x], one)), ["show"])
expression("refused_signs", "-" * 4000 + "1")
expression("refused_brackets", "(" * 2000 + "1" + ")" * 2000)
case("refused_ring_of_calculates",
     form(["model", ["instance", document(*[[f"c{k}", "1"] for k in range(4096)])],
           *[["bind", {"nodeset": f"c{k}", "calculate": f"../c{(k + 1) % 4096} + 1"}] for k in range(4096)]]), ["show"])

for name, (what, events, store) in CASES.items():
    folder = TOP / name
    folder.mkdir()
    text = what if isinstance(what, str) else json.dumps(what, separators=(",", ":"))
    assert len(text) <= FORM_LIMIT, (name, len(text))
    (folder / "form.json").write_text(text)
    (folder / "events").write_text("".join((e if isinstance(e, str) else json.dumps(e, separators=(",", ":"))) + "\n" for e in (*events, ["show"])))
    (folder / "store").mkdir()
    for key, value in store.items():
        (folder / "store" / key).write_text(value)
