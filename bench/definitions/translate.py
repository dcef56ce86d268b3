"""Definitions as Python, word by word: each function with its clauses in their order, each constructor a tuple, each record an object.

Laws, types and facts are left out: what begins with an upper-case letter. What the definitions take from the library is in library.py.
"""
import re

from modules import CON, MODULES, Tok, all_modules, mangle, resolve_global

PREC = {"∷": (67, "r"), "++": (65, "l"), "+": (65, "l"), "-": (65, "l"), "*": (70, "l"), "/": (70, "l"), "%": (70, "l"), "^": (75, "r"), "==": (40, "n"),
        "&&": (35, "l"), "||": (30, "l"), ">>=": (10, "l"), ">>": (10, "l"), "+ℤ": (65, "l"), "-ℤ": (65, "l"), "*ℤ": (70, "l")}
# constructors whose names alone stand as functions
HAVE_ARGUMENTS = {"Nodes": 1, "Text": 1, "Number": 1, "Truth": 1}


class Fun:
    """The translation of one function."""
    def __init__(self, module, name):
        self.m, self.name = module, name
        self.count = 0

    # ---- names
    def lookup(self, name, scope):
        """a name without dots"""
        if name in scope:
            return ("local", scope[name])
        if name in self.m.defs:
            return ("fn", self.m, name)
        if name in self.m.cons and self.m.con_line[name] < self.m.def_line[self.name]:
            return ("con", name, self.m.cons[name])
        if name in self.m.imports:
            return resolve_global(*self.m.imports[name])
        if name in CON:
            return ("con", name, CON[name][1])
        return ("std", name)

    def is_con(self, name):
        r = self.lookup(name, {})
        return r[0] == "con"

    def fresh(self, base="t"):
        self.count += 1
        return "%s%d" % (mangle(base), self.count)

    # ---- patterns: list of conditions and bindings
    def match(self, pat, value, conds, binds, scope):
        kind = pat[0]
        if kind == "name":
            name = pat[1]
            if name == "_":
                return
            if re.match(r"\d+$", name):
                conds.append("%s == %s" % (value, name))
                return
            if name in ("Bool.true", "Bool.false"):
                conds.append(("%s" if name == "Bool.true" else "not %s") % value)
                return
            if "." in name:
                conds.append("%s[0] == %r" % (value, name.split(".")[-1]))
                return
            if name == "[]" or self.is_con(name):
                self.match_con(name, [], value, conds, binds, scope)
                return
            v = self.fresh("v_" + name)
            binds.append((v, value))
            scope[name] = v
            return
        if kind == "cons":
            conds.append("%s" % value)
            self.match(pat[1], value + "[0]", conds, binds, scope)
            self.match(pat[2], value + "[1:]", conds, binds, scope)
            return
        if kind == "tuple":
            for i, p in enumerate(pat[1]):
                self.match(p, "%s[%d]" % (value, i), conds, binds, scope)
            return
        if kind == "app":
            self.match_con(pat[1][1], pat[2], value, conds, binds, scope)
            return
        raise Exception(pat)

    def match_con(self, name, args, value, conds, binds, scope):
        last = self.m.imports.get(name, (None, name))[1].split(".")[-1]
        if last in ("true", "false"):
            conds.append(("%s" if last == "true" else "not %s") % value)
        elif last == "zero":
            conds.append("%s == 0" % value)
        elif last == "suc" and "." not in name:
            conds.append("%s > 0" % value)
            self.match(args[0], "(%s - 1)" % value, conds, binds, scope)
        elif last == "pos":
            conds.append("%s >= 0" % value)
            self.match(args[0], value, conds, binds, scope)
        elif last == "negsuc":
            conds.append("%s < 0" % value)
            self.match(args[0], "(-%s - 1)" % value, conds, binds, scope)
        elif last == "[]":
            conds.append("not %s" % value)
        else:
            if last in ("None",) :
                conds.append("%s is None_" % value)
            else:
                conds.append("%s[0] == %r" % (value, last))
            for i, p in enumerate(args):
                self.match(p, "%s[%d]" % (value, i + 1), conds, binds, scope)

    # ---- expressions
    def body(self, toks, scope):
        self.t, self.i, self.blocks = toks, 0, [-1]
        e = self.expr(scope)
        if self.i < len(self.t):
            raise Exception("%s %s: left over %s" % (self.m.key, self.name, self.t[self.i:self.i + 8]))
        return e

    def peek(self):
        if self.i >= len(self.t):
            return None
        t = self.t[self.i]
        if t.first and t.col <= self.blocks[-1]:
            return None
        return t

    def next(self):
        t = self.peek()
        if t is None:
            raise Exception("%s %s: end at %s" % (self.m.key, self.name, self.t[self.i:self.i + 3]))
        self.i += 1
        return t

    def expect(self, s):
        t = self.next()
        if t.s != s:
            raise Exception("%s %s: want %s have %s" % (self.m.key, self.name, s, t))

    def expr(self, scope, least=0):
        left = self.prefix(scope)
        while True:
            t = self.peek()
            if t is None or t.s not in PREC:
                return left
            prec, side = PREC[t.s]
            if prec < least:
                return left
            self.next()
            op = t.s
            right_least = prec if side == "r" else prec + 1
            right = self.expr(scope, right_least)
            left = self.binary(op, left, right, scope)

    def binary(self, op, a, b, scope):
        if op == "∷":
            return "cons(%s, %s)" % (a, b)
        if op == "++":
            return "(%s + %s)" % (a, b)
        if op == "+" or op == "+ℤ":
            return "(%s + %s)" % (a, b)
        if op == "-":
            return "monus(%s, %s)" % (a, b)
        if op == "-ℤ":
            return "(%s - %s)" % (a, b)
        if op in ("*", "*ℤ"):
            return "(%s * %s)" % (a, b)
        if op == "/":
            return "div(%s, %s)" % (a, b)
        if op == "%":
            return "mod(%s, %s)" % (a, b)
        if op == "^":
            return "(%s ** %s)" % (a, b)
        if op == "==":
            return "(%s == %s)" % (a, b)
        if op == "&&":
            return "(%s and %s)" % (a, b)
        if op == "||":
            return "(%s or %s)" % (a, b)
        return self.call_global(self.lookup("◌%s◌" % op, {}), [a, b])

    def prefix(self, scope):
        t = self.peek()
        if t.s == "λ":
            return self.lam(scope)
        if t.s == "let":
            return self.let(scope)
        if t.s == "if":
            self.next()
            c = self.expr(scope)
            self.expect("then")
            a = self.expr(scope)
            self.expect("else")
            b = self.expr(scope, 5)
            return "(%s if %s else %s)" % (a, c, b)
        if t.s == "do":
            return self.do(scope)
        return self.application(scope)

    def lam(self, scope):
        self.expect("λ")
        scope = dict(scope)
        names = []
        while True:
            t = self.next()
            if t.s == ".":
                break
            if t.s == "(":
                # (x : T)
                n = self.next().s
                while self.next().s != ")":
                    pass
                t = Tok(n, 0, 0, False)
            v = self.fresh("v_" + t.s)
            if t.s != "_":
                scope[t.s] = v
            names.append(v)
        body = self.expr(scope)
        return "Fn(lambda %s: %s, %d)" % (", ".join(names), body, len(names))

    def let(self, scope):
        self.expect("let")
        scope = dict(scope)
        t = self.next()
        name = t.s
        self.expect("=")
        value = self.expr(scope)
        self.expect("in")
        v = self.fresh("v_" + name)
        scope[name] = v
        body = self.expr(scope)
        return "(lambda %s: %s)(%s)" % (v, body, value)

    def do(self, scope):
        self.expect("do")
        t = self.peek()
        col = t.col
        return self.do_items(dict(scope), col)

    def do_items(self, scope, col):
        # at the first token of an item
        t = self.t[self.i]
        is_bind = False
        if self.i + 1 < len(self.t) and self.t[self.i + 1].s == "←":
            is_bind = True
        if is_bind:
            name = t.s
            self.i += 2
            self.blocks.append(col)
            value = self.expr(scope)
            self.blocks.pop()
            scope = dict(scope)
            v = self.fresh("v_" + name)
            scope[name] = v
            nxt = self.t[self.i]
            assert nxt.first and nxt.col == col, (self.m.key, self.name, nxt, col)
            rest = self.do_items(scope, col)
            return self.call_global(self.lookup("◌>>=◌", {}), [value, "Fn(lambda %s: %s, 1)" % (v, rest)])
        self.blocks.append(col)
        first = t.first
        t.first = False
        value = self.expr(scope)
        t.first = first
        self.blocks.pop()
        return value

    def application(self, scope):
        head = self.atom(scope)
        args = []
        while True:
            t = self.peek()
            if t is None or t.s in PREC or t.s in (")", "]", "}", ",", ";", "then", "else", "in", "=", "←", "."):
                break
            if t.s in ("λ", "let", "if", "do"):
                args.append(self.prefix(scope))
                continue
            if t.s == "{":
                depth = 0
                while True:
                    s = self.next().s
                    depth += s == "{"
                    depth -= s == "}"
                    if depth == 0:
                        break
                continue
            args.append(self.value(self.atom(scope)))
        if isinstance(head, tuple):
            return self.call_global(head, args)
        if not args:
            return head
        return "ap(%s, %s)" % (head, ", ".join(args))

    def value(self, atom):
        return self.call_global(atom, []) if isinstance(atom, tuple) else atom

    def atom(self, scope):
        """a python text, or a resolved global as a tuple"""
        t = self.next()
        s = t.s
        if s == "(":
            self.blocks.append(-1)
            e = self.expr(scope)
            if self.peek().s == ",":
                parts = [e]
                while self.peek().s == ",":
                    self.next()
                    if self.peek().s == ")":
                        break
                    parts.append(self.expr(scope))
                e = "(%s,)" % ", ".join(parts)
            else:
                e = "(%s)" % e
            self.expect(")")
            self.blocks.pop()
            return self.fields(e)
        if s == "[]":
            return "()"
        if s.startswith('"'):
            return "codes(%s)" % s
        if s == "record":
            return self.record(scope)
        if re.match(r"\d+$", s):
            return s
        return self.fields_of_name(s, scope)

    def fields(self, e):
        t = self.peek()
        if t is not None and t.s.startswith(".") and len(t.s) > 1:
            # no space before: same line, adjacent
            prev = self.t[self.i - 1]
            if prev.line == t.line and prev.col + len(prev.s) == t.col:
                self.next()
                return self.access(e, t.s[1:].split("."))
        return e

    def access(self, e, names):
        for n in names:
            e = "%s[%s]" % (e, n) if n.isdigit() else "%s.f_%s" % (e, mangle(n))
        return e

    def fields_of_name(self, s, scope):
        parts = s.split(".")
        first = parts[0]
        if first in scope:
            return self.access(scope[first], parts[1:])
        if len(parts) > 1:
            if first in self.m.aliases:
                r = resolve_global(self.m.aliases[first], parts[1])
                if len(parts) > 2:
                    return self.access(self.call_global(r, []), parts[2:])
                return r
            if s in ("Bool.true", "Bool.false"):
                return ("con", parts[1], 0)
            r = self.lookup(first, scope)
            if r[0] in ("open", "type"):
                return ("con", parts[1], None)
            if first[0].isupper():
                return ("con", parts[-1], None) if parts[-1][0].isupper() else ("std", s)
            return self.access(self.call_global(r, []), parts[1:])
        return self.lookup(first, scope)

    def record(self, scope):
        t = self.peek()
        base = None
        if t.s != "{":
            base = self.value(self.atom(scope))
        self.expect("{")
        self.blocks.append(-1)
        fields = []
        while self.peek().s != "}":
            name = self.next().s
            self.expect("=")
            fields.append("f_%s=%s" % (mangle(name), self.expr(scope)))
            if self.peek().s == ";":
                self.next()
        self.expect("}")
        self.blocks.pop()
        if base is not None:
            return "%s.with_(%s)" % (base, ", ".join(fields))
        return "R(%s)" % ", ".join(fields)

    def call_global(self, r, args):
        kind = r[0]
        if kind == "local":
            return r[1] if not args else "ap(%s, %s)" % (r[1], ", ".join(args))
        if kind == "con":
            name, arity = r[1], r[2]
            if name == "true":
                return "True"
            if name == "false":
                return "False"
            if name == "zero":
                return "0"
            if name == "[]":
                return "()"
            if name == "None":
                return "None_"
            if name == "tt":
                return "()"
            if name in ("suc", "pos", "negsuc") and args:
                return {"suc": "(%s + 1)", "pos": "%s", "negsuc": "(-%s - 1)"}[name] % args[0]
            if name in ("suc", "pos", "negsuc"):
                return "Fn(lambda x: %s, 1)" % ({"suc": "(%s + 1)", "pos": "%s", "negsuc": "(-%s - 1)"}[name] % "x")
            if arity is not None and len(args) < arity:
                return "con(%r, %d%s)" % (name, arity, "".join(", " + a for a in args))
            if arity is None and not args and name in HAVE_ARGUMENTS:
                return "con(%r, %d)" % (name, HAVE_ARGUMENTS[name])
            return "(%r%s,)" % (name, "".join(", " + a for a in args))
        if kind == "fn":
            m, name = r[1], r[2]
            arity = len(m.defs[name][0][0])
            f = pyname(m, name)
            if name == "or_later" and len(args) == 2:
                return "or_later_(%s, lambda: %s)" % (args[0], args[1])
            if arity == 0:
                e = "%s()" % f
                return e if not args else "ap(%s, %s)" % (e, ", ".join(args))
            if len(args) == arity:
                return "%s(%s)" % (f, ", ".join(args))
            if len(args) > arity:
                return "ap(%s(%s), %s)" % (f, ", ".join(args[:arity]), ", ".join(args[arity:]))
            return "pap(%s, %d%s)" % (f, arity, "".join(", " + a for a in args))
        if kind in ("std", "type", "open"):
            name = r[1]
            if kind != "std":
                return "None"
            if name in ("ℕ", "Bool"):
                return "None"
            e = "std_" + mangle(name)
            return e if not args else "ap(%s, %s)" % (e, ", ".join(args))
        raise Exception(r)




def pyname(m, name):
    return "%s__%s__%s" % (m.crate, m.name.replace("/", "_").replace(".", "_"), mangle(name))


def source():
    """The text of a module with all definitions, and the names of those that are not translated."""
    all_modules()
    out, bad = [], []
    for m in MODULES.values():
        for name in m.order:
            clauses = m.defs[name]
            arity = len(clauses[0][0])
            f = pyname(m, name)
            params = ["a%d" % i for i in range(arity)]
            lines = ["def %s(%s):" % (f, ", ".join(params))]
            fun = Fun(m, name)
            try:
                closed = False
                for pats, rhs in clauses:
                    assert len(pats) == arity, "arity"
                    conds, binds, scope = [], [], {}
                    for p, v in zip(pats, params):
                        fun.match(p, v, conds, binds, scope)
                    e = fun.body(rhs, scope)
                    ind = "    "
                    if conds:
                        lines.append("    if %s:" % " and ".join(conds))
                        ind = "        "
                    for v, value in binds:
                        lines.append("%s%s = %s" % (ind, v, value))
                    lines.append("%sreturn %s" % (ind, e))
                    if not conds:
                        closed = True
                        break
                if not closed:
                    lines.append("    raise Exception(%r)" % f)
                out.append("\n".join(lines))
            except Exception as why:
                bad.append((f, repr(why)))
    return "from library import *\n\n\n" + "\n\n\n".join(out) + "\n", bad
