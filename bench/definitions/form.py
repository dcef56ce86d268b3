"""A form as JSON has it, as the tables that the definitions of the form machine take. Forms that loading refuses are not told apart."""
import re

import definitions as D
from library import None_, R, ap, codes, lit_from, text

XF = "http://www.w3.org/2002/xforms"
EV = "http://www.w3.org/2001/xml-events"
XS = "http://www.w3.org/2001/XMLSchema"


def some(x):
    return ("Some", x)


# ---------------------------------------------------------------- expressions

TOKEN = re.compile(r"""\s*(?:(\d+(?:\.\d*)?|\.\d+)|("[^"]*"|'[^']*')|(\.\.|::|//|!=|<=|>=|[()\[\].@,/|+\-=<>*])|([^\W\d][\w.\-]*(?::(?:[^\W\d][\w.\-]*|\*)(?!:))?))""")
AXES = {"child": "Child", "attribute": "Attribute", "self": "Self_", "parent": "Parent", "ancestor": "Ancestor", "ancestor-or-self": "AncestorOrSelf",
        "descendant": "Descendant", "descendant-or-self": "DescendantOrSelf", "following-sibling": "FollowingSibling", "preceding-sibling": "PrecedingSibling"}
RANKS = [{"|": "Union"}, {"*": "Multiply", "div": "Divide", "mod": "Modulo"}, {"+": "Add", "-": "Subtract"},
         {"<": "Less", "<=": "LessOrEqual", ">": "Greater", ">=": "GreaterOrEqual"}, {"=": "Equal", "!=": "NotEqual"}, {"and": "And"}, {"or": "Or"}]
TYPES = {"text": "Text", "node": "Node", "comment": "Nothing", "processing-instruction": "Nothing"}


class Parser:
    """Reads an expression (XPath 1.0, section 3)."""

    def __init__(self, s, bindings, decimals):
        self.b, self.decimals = bindings, decimals
        self.t, i = [], 0
        s = s.rstrip()
        while i < len(s):
            m = TOKEN.match(s, i)
            if not m:
                raise Exception("token " + s[i:])
            kind = "number" if m.group(1) is not None else "literal" if m.group(2) is not None else "sign" if m.group(3) is not None else "name"
            self.t.append((kind, m.group(1) or m.group(2) or m.group(3) or m.group(4)))
            i = m.end()
        self.i = 0
        self.codes = {}
        for e in D.xf_table__Contents__function_entries():
            self.codes[text(e.f_name)] = e.f_code

    def peek(self, at=0):
        return self.t[self.i + at] if self.i + at < len(self.t) else ("end", "")

    def next(self):
        t = self.peek()
        self.i += 1
        return t

    def expect(self, s):
        t = self.next()
        if t[1] != s:
            raise Exception("want %s have %s" % (s, t))

    def whole(self):
        e = self.rank(6)
        if self.i < len(self.t):
            raise Exception("left %r" % (self.t[self.i:],))
        return e

    def rank(self, r):
        if r == 0:
            first = self.operand
            below = self.operand
        elif r == 1:
            below = self.unary
        else:
            below = lambda: self.rank(r - 1)
        left = below()
        links = []
        while True:
            kind, s = self.peek()
            if kind in ("sign", "name") and s in RANKS[r] and not (kind == "literal"):
                self.next()
                links.append(R(f_place=0, f_operator=(RANKS[r][s],), f_right=below()))
            else:
                break
        return ("Chain", left, tuple(links)) if links else left

    def unary(self):
        n = 0
        while self.peek() == ("sign", "-"):
            self.next()
            n += 1
        e = self.rank(0)
        return ("Negated", 0, n, e) if n else e

    def is_primary(self):
        kind, s = self.peek()
        if kind in ("number", "literal") or (kind, s) == ("sign", "("):
            return True
        return kind == "name" and self.peek(1) == ("sign", "(") and s not in TYPES

    def operand(self):
        if not self.is_primary():
            return self.path()
        kind, s = self.next()
        if kind == "number":
            e = ("Number", 0, D.xf_num__Written__read_at(self.decimals, codes(s)))
        elif kind == "literal":
            e = ("Literal", 0, codes(s[1:-1]))
        elif s == "(":
            e = self.rank(6)
            self.expect(")")
        else:
            args = []
            self.expect("(")
            if self.peek() != ("sign", ")"):
                args.append(self.rank(6))
                while self.peek() == ("sign", ","):
                    self.next()
                    args.append(self.rank(6))
            self.expect(")")
            e = ("Call", 0, self.codes[s], tuple(args))
        predicates = self.predicates()
        if predicates:
            e = ("Filter", e, predicates)
        if self.peek() in (("sign", "/"), ("sign", "//")):
            below = self.next()[1] == "//"
            e = ("From", e, self.steps(below))
        return e

    def predicates(self):
        out = []
        while self.peek() == ("sign", "["):
            self.next()
            out.append(self.rank(6))
            self.expect("]")
        return tuple(out)

    def begins_step(self):
        kind, s = self.peek()
        return kind == "name" or (kind == "sign" and s in (".", "..", "@", "*"))

    def path(self):
        kind, s = self.peek()
        if s == "//" and kind == "sign":
            self.next()
            return ("Path", 0, ("Root",), self.steps(True))
        if s == "/" and kind == "sign":
            self.next()
            if self.begins_step():
                return ("Path", 0, ("Root",), self.steps(False))
            return ("Path", 0, ("Root",), ())
        return ("Path", 0, ("Context",), self.steps(False))

    def steps(self, below):
        out = [self.step(below)]
        while self.peek() in (("sign", "/"), ("sign", "//")):
            below = self.next()[1] == "//"
            out.append(self.step(below))
        return tuple(out)

    def step(self, below):
        def made(axis, test, written, predicates=()):
            return R(f_place=0, f_is_below=below, f_is_written=written, f_axis=(axis,), f_test=test, f_predicates=predicates)
        kind, s = self.peek()
        if (kind, s) == ("sign", "."):
            self.next()
            return made("Self_", ("Node",), False)
        if (kind, s) == ("sign", ".."):
            self.next()
            return made("Parent", ("Node",), False)
        axis = "Child"
        if (kind, s) == ("sign", "@"):
            self.next()
            axis = "Attribute"
        elif kind == "name" and self.peek(1) == ("sign", "::"):
            axis = AXES[s]
            self.next()
            self.next()
        kind, s = self.next()
        if s == "*" and kind == "sign":
            test = ("AnyName",)
        elif kind != "name":
            raise Exception("step %r" % ((kind, s),))
        elif self.peek() == ("sign", "(") and s in TYPES:
            self.next()
            if self.peek()[0] == "literal":
                self.next()
            self.expect(")")
            test = (TYPES[s],)
        elif s.endswith(":*"):
            test = ("InSpace", D.xf_name__Bindings__prefix_numbers(self.b, codes(s[:-2]))[1][1])
        else:
            q = D.xf_name__Bindings__resolved(self.b, codes(s), 0)
            if q[0] != "Ok":
                raise Exception(s)
            test = ("Name", q[1])
        return made(axis, test, True, self.predicates())


# ---------------------------------------------------------------- forms

CONTROLS = {"group", "switch", "case", "repeat", "input", "secret", "textarea", "output", "select", "select1", "trigger", "submit"}
ACTIONS = {"action", "setvalue", "insert", "delete", "setindex", "toggle", "setfocus", "dispatch", "send", "load", "message", "reset", "rebuild",
           "recalculate", "revalidate", "refresh"}
HAS_MODEL = (CONTROLS - {"output", "case"}) | ACTIONS
PASSED = {"help", "hint", "alert", "extension"}
TEXTS = {"label", "value", "message"}


class Node:
    """An element of the form outside its instances."""


class Loader:
    """The tables of a form."""

    def __init__(self, form):
        self.lit = ("Element", lit_from(form))
        self.b = D.xf_name__Declarations__bindings_of(self.lit)
        self.nodes, self.ids = [], {}
        self.counts = {}
        self.of_kind = {k: [] for k in ("model", "instance", "bind", "submission", "repeat", "switch")}
        self.documents, self.instances, self.types = [], [], []
        self.controls = 0
        self.walk(self.lit[1], None, 0, None)
        self.build()

    def name(self, written, space):
        q = D.xf_name__Bindings__resolved(self.b, written, space)
        if q[0] != "Ok":
            raise Exception("name %s %s" % (text(written), q))
        uri = D.xf_name__Bindings__text_of_space(self.b, q[1].f_space)
        return (text(uri[1]) if uri[0] == "Some" else ""), text(q[1].f_local)

    def walk(self, e, parent, space, model):
        space = D.xf_def_forest__Plant__default_below(self.b, space, e.f_attributes)
        uri, local = self.name(e.f_name, space)
        is_xf = uri == XF
        if is_xf and local in PASSED:
            return None
        if (uri, local) == (XS, "schema") and model is not None:
            self.read_schema(e)
            return None
        n = Node()
        n.number, n.parent, n.local, n.is_xf = len(self.nodes), parent, local, is_xf
        self.nodes.append(n)
        n.attr, n.ev = {}, {}
        for p in e.f_attributes:
            w = text(p.f_name)
            if w == "xmlns" or w.startswith("xmlns:"):
                continue
            u, l = self.name(p.f_name, 0)
            if u == "":
                n.attr[l] = text(p.f_text)
            elif u == EV:
                n.ev[l] = text(p.f_text)
        n.id = n.attr.get("id", "")
        if n.id and n.id not in self.ids:
            self.ids[n.id] = n
        n.kind = local if is_xf else "host"
        # nearest element around that is no host
        a = parent
        while a is not None and a.kind == "host":
            a = a.parent
        n.near = a
        n.is_inline = n.kind == "output" and a is not None and a.kind in TEXTS
        if n.kind == "model":
            n.of = len(self.of_kind["model"])
            model = n.of
        n.model_around = model
        for k in self.of_kind:
            if n.kind == k:
                n.of = len(self.of_kind[k])
                self.of_kind[k].append(n)
        n.place = None
        if n.kind in CONTROLS and not n.is_inline:
            self.controls += 1
            n.place = self.controls
        n.parts, n.children = [], []
        if n.kind == "instance":
            inner = [c for c in e.f_children if c[0] == "Element"]
            self.documents.append(ap(D.xf_def_forest__Plant__contents_of(self.b), inner[0], space, 0))
            n.space = space
            return n
        for c in e.f_children:
            if c[0] == "Text":
                n.parts.append(("Text", c[1]))
            else:
                m = self.walk(c[1], n, space, model)
                if m is not None:
                    n.parts.append(("Element", m.number))
                    n.children.append(m)
        return n

    def expr(self, s):
        return Parser(s, self.b, self.decimals()).whole()

    def decimals(self):
        """How many decimals the form's numbers have: the first model says so."""
        return int(self.of_kind["model"][0].attr.get("decimals", "6"))

    def opt(self, n, name):
        return some(self.expr(n.attr[name])) if name in n.attr else None_

    def binding(self, n, *names):
        if "bind" in n.attr:
            return ("Bind", self.ids[n.attr["bind"]].of)
        for k in names:
            if k in n.attr:
                return ("Nodes", self.expr(n.attr[k]))
        return ("Absent",)

    def scope(self, n):
        if n is None:
            return 0
        if n.kind == "model":
            return n.of
        if "bind" in n.attr:
            return self.ids[n.attr["bind"]].model_around
        if "model" in n.attr and n.kind in HAS_MODEL:
            return self.ids[n.attr["model"]].of
        return self.scope(n.parent)

    def submission(self, n):
        if "submission" in n.attr:
            return some(self.ids[n.attr["submission"]].of)
        m = self.scope(n)
        for s in self.of_kind["submission"]:
            if s.model_around == m:
                return some(s.of)
        return None_

    def control(self, n):
        k = n.kind
        if k == "switch":
            return ("Switch", n.of)
        if k == "case":
            return ("Case", n.attr.get("selected") == "true")
        if k == "repeat":
            return ("Repeat", n.of, int(n.attr.get("startindex", "1")))
        if k == "output":
            return ("Output", self.opt(n, "value") if "value" in n.attr else None_)
        if k == "select":
            return ("Select", n.attr.get("selection") == "open")
        if k == "select1":
            return ("SelectOne", n.attr.get("selection") == "open")
        if k == "submit":
            return ("Submit", self.submission(n))
        return (k.capitalize(),)

    def in_action(self, n):
        a = n.parent
        while a is not None:
            if a.kind in ACTIONS and a.is_xf:
                return True
            a = a.parent
        return False

    def handler(self, n):
        if self.in_action(n):
            return None_
        observer = some(self.ids[n.ev["observer"]].number) if "observer" in n.ev else (some(n.parent.number) if n.parent else None_)
        target = some(self.ids[n.ev["target"]].number) if "target" in n.ev else None_
        return some(R(f_event=codes(n.ev["event"]), f_observer=observer, f_target=target,
                      f_phase=("Capture",) if n.ev.get("phase") == "capture" else ("Default",),
                      f_stops=n.ev.get("propagate") == "stop", f_cancels=n.ev.get("defaultAction") == "cancel"))

    def work(self, n):
        k, a = n.kind, n.attr
        if k == "action":
            return ("Action",)
        if k == "setvalue":
            return ("SetValue", self.opt(n, "value"))
        if k == "insert":
            return ("Insert", R(f_context=self.opt(n, "context"), f_origin=self.opt(n, "origin"), f_at=self.opt(n, "at"), f_is_before=a.get("position") == "before"))
        if k == "delete":
            return ("Delete", R(f_context=self.opt(n, "context"), f_at=self.opt(n, "at")))
        if k == "setindex":
            return ("SetIndex", self.ids[a["repeat"]].of, self.expr(a["index"]))
        if k == "toggle":
            return ("Toggle", self.ids[a["case"]].number)
        if k == "setfocus":
            return ("SetFocus", self.ids[a["control"]].number)
        if k == "dispatch":
            t = a.get("targetid", a.get("target"))
            return ("Dispatch", R(f_name=codes(a["name"]), f_target=self.ids[t].number, f_bubbles=a.get("bubbles", "true") == "true",
                                  f_is_cancelable=a.get("cancelable", "true") == "true"))
        if k == "send":
            return ("Send", self.submission(n))
        if k == "load":
            return ("Load", codes(a.get("resource", "")))
        return ({"message": "Message", "reset": "Reset", "rebuild": "Rebuild", "recalculate": "Recalculate", "revalidate": "Revalidate", "refresh": "Refresh"}[k],)

    def kind_of(self, n):
        k = n.kind
        if k == "host":
            return ("Host",)
        if k in ("model", "instance", "bind", "submission"):
            return (k.capitalize(), n.of)
        if n.is_inline:
            return ("Output", self.opt(n, "value"))
        if k in CONTROLS:
            return ("Control", n.place, self.control(n))
        if k in ("item", "itemset", "choices", "label"):
            return (k.capitalize(),)
        if k == "value":
            return ("Value", self.opt(n, "value"))
        return ("Action", R(f_handler=self.handler(n), f_condition=self.opt(n, "if"), f_repetition=self.opt(n, "while"), f_work=self.work(n)))

    def element(self, n):
        k = n.kind
        model = some(n.of) if k == "model" else (some(self.ids[n.attr["model"]].of) if k in HAS_MODEL and "model" in n.attr else None_)
        if k in ("host", "model", "instance", "bind", "submission", "case", "item", "choices", "toggle", "setindex", "setfocus", "dispatch", "send", "action") or k in ("reset", "rebuild", "recalculate", "revalidate", "refresh"):
            binding = ("Absent",)
        elif k in ("repeat", "itemset", "insert", "delete"):
            binding = self.binding(n, "nodeset")
        else:
            binding = self.binding(n, "ref")
        return R(f_id=codes(n.id), f_parent=some(n.parent.number) if n.parent else None_, f_parts=tuple(n.parts), f_model=model, f_binding=binding, f_kind=self.kind_of(n))

    def read_schema(self, schema):
        """Its types by restriction, each with the facets of the first restriction in it."""
        space = self.text_in(schema, "targetNamespace")
        for kind, element in self.inside(schema):
            restriction = [r for k, r in self.inside(element) if k == "restriction"] if kind == "simpleType" else []
            if restriction:
                facets = tuple((k, self.text_in(f, "value")) for k, f in self.inside(restriction[0]) if k != "annotation")
                self.types.append((space, self.text_in(element, "name"), self.text_in(restriction[0], "base"), facets))

    def inside(self, e):
        return [(self.name(c[1].f_name, 0)[1], c[1]) for c in e.f_children if c[0] == "Element"]

    @staticmethod
    def text_in(e, name):
        return next((text(p.f_text) for p in e.f_attributes if text(p.f_name) == name), "")

    def named_type(self, w):
        """A built-in type, or one of the form's by its number."""
        q = D.xf_name__Bindings__resolved(self.b, codes(w), 0)[1]
        uri = D.xf_name__Bindings__text_of_space(self.b, q.f_space)
        t = D.xf_types__Named__type_named(uri[1] if uri[0] == "Some" else (), q.f_local)
        if t[0] == "Some":
            return some(("BuiltIn", t[1]))
        own = [number for number, (space, name, _, _) in enumerate(self.types) if uri[0] == "Some" and (space, name) == (text(uri[1]), text(q.f_local))]
        if not own:
            raise Exception("type " + w)
        return some(("Declared", own[0]))

    def restriction(self, space, name, base, facets):
        made = tuple(R(f_kind=(k[0].upper() + k[1:],), f_value=codes(value), f_place=0) for k, value in facets)
        return R(f_name=R(f_space=codes(space), f_local=codes(name)), f_type_place=0, f_base=self.named_type(base), f_place=0, f_facets=made)

    def type_of(self, n):
        return self.named_type(n.attr["type"]) if "type" in n.attr else None_

    def build(self):
        instances = tuple(R(f_model=n.model_around, f_id=codes(n.id), f_place=(), f_space=n.space) for n in self.of_kind["instance"])
        binds = []
        for n in self.of_kind["bind"]:
            around = n.parent
            while around is not None and around.kind == "host":
                around = around.parent
            binds.append(R(f_model=n.model_around, f_id=codes(n.id), f_around=some(around.of) if around.kind == "bind" else None_,
                           f_node_set=self.expr(n.attr.get("nodeset", ".")),
                           f_properties=R(f_kind=self.type_of(n), **{"f_" + p: self.opt(n, p) for p in ("calculate", "relevant", "readonly", "required", "constraint")})))
        submissions = []
        for n in self.of_kind["submission"]:
            a = n.attr
            none = a.get("serialization") == "none"
            default = "false" if none else "true"
            selection = ("Bind", self.ids[a["bind"]].of) if "bind" in a else ("Ref", self.expr(a["ref"])) if "ref" in a else ("Whole",)
            submissions.append(R(f_model=n.model_around, f_id=codes(n.id), f_selection=selection, f_is_relevant=a.get("relevant", default) == "true",
                                 f_is_validated=a.get("validate", default) == "true", f_resource=codes(a.get("resource", a.get("action", ""))),
                                 f_method=(a["method"].capitalize(),), f_replace=({"all": "All", "instance": "Instance", "text": "Text", "none": "Nothing"}[a.get("replace", "all")],),
                                 f_instance=some(self.ids[a["instance"]].of) if "instance" in a else None_, f_target=self.opt(n, "targetref"), f_is_serialized=not none))
        tables = R(f_models=len(self.of_kind["model"]), f_instances=instances, f_binds=tuple(binds), f_submissions=tuple(submissions),
                   f_types=tuple(self.restriction(*t) for t in self.types))
        numbers = lambda k: tuple(n.number for n in self.of_kind[k])
        self.form = R(f_decimals=self.decimals(), f_tables=tables, f_elements=tuple(self.element(n) for n in self.nodes), f_models=numbers("model"), f_instances=numbers("instance"),
                      f_binds=numbers("bind"), f_submissions=numbers("submission"), f_repeats=numbers("repeat"), f_switches=numbers("switch"))
        self.program = D.xf_def_machine__Tables__program_of(self.form, self.b, tuple(self.documents))
