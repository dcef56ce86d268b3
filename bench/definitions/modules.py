"""Modules of definitions as they are read: tokens, what each module names, constructors, clauses with their patterns."""
import os
import re

CRATES = "xf_base xf_num xf_def_values xf_table xf_name xf_types xf_schema xf_dates xf_funcs xf_store xf_graph xf_def_syntax xf_def_forest xf_def_xpath xf_def_model xf_def_ui xf_def_machine".split()
ROOT = os.path.join(os.path.dirname(os.path.abspath(__file__)), "..", "..", "crates")
CON = {"true": ("True", 0), "false": ("False", 0), "zero": ("0", 0), "suc": ("suc", 1), "Some": ("Some", 1), "None": ("None", 0), "Ok": ("Ok", 1),
       "Err": ("Err", 1), "pos": ("pos", 1), "negsuc": ("negsuc", 1), "[]": ("nil", 0), "tt": ("tt", 0)}
TOKEN = re.compile(r'"(?:[^"\\]|\\.)*"|\[\]|[()\[\]{};,]|[^\s()\[\]{};,."λ]+(?:\.[^\s()\[\]{};,."]+)*|λ|\.[^\s()\[\]{};,."]+(?:\.[^\s()\[\]{};,."]+)*|\.')


class Tok:
    """A token with its place, and whether it is the first of its line."""
    __slots__ = ("s", "line", "col", "first")
    def __init__(self, s, line, col, first):
        self.s, self.line, self.col, self.first = s, line, col, first
    def __repr__(self):
        return "%s@%d:%d" % (self.s, self.line, self.col)


def tokens(lines, start):
    """Those of lines, comments left out."""
    out = []
    for i, text in enumerate(lines):
        body = text
        # comments
        m = re.search(r'(^|\s)--(\s|$)', body)
        if m and body[:m.start()].count('"') % 2 == 0:
            body = body[:m.start()]
        first = True
        for m in TOKEN.finditer(body):
            out.append(Tok(m.group(), start + i, m.start(), first))
            first = False
    return out


def mangle(name):
    """A name as Python can have it."""
    out = []
    for c in name:
        if c.isalnum() and c.isascii() or c == "_":
            out.append(c)
        else:
            out.append("_%x_" % ord(c))
    return "".join(out)


class Module:
    """A module of definitions: what it names, and the clauses of its functions."""

    def __init__(self, crate, name, path):
        self.crate, self.name, self.path = crate, name, path
        self.key = "Rattle.%s.specs.%s" % (crate, name)
        self.defs = {}       # name -> list of (patterns, tokens, isinfix)
        self.cons = {}       # constructor -> arity
        self.con_line, self.def_line = {}, {}
        self.imports = {}    # name -> (module, name)
        self.aliases = {}    # alias -> module
        self.exports = {}
        self.order = []


MODULES = {}


def items(text):
    """The declarations and clauses of a module: each begins at the left margin."""
    lines = text.split("\n")
    group, start = [], 0
    for i, line in enumerate(lines):
        if line.startswith("--") or not line.strip():
            continue
        new = not line[0].isspace() and line[0] not in "})"
        if new:
            if group:
                yield start, group
            group, start = [], i
        if group or new:
            while len(group) < i - start:
                group.append("")
            group.append(line)
    if group:
        yield start, group


def parse_use(module, text):
    m = re.match(r"(?:pub )?use (\S+?)(?:\.\{(.*)\})?(?: as (\S+))?$", " ".join(text.split()))
    if not m:
        raise Exception("use " + text)
    path, names, alias = m.groups()
    if names is not None:
        for part in [x.strip() for x in names.split(",") if x.strip()]:
            mm = re.match(r"(\S+) as (\S+)$", part)
            name, own = (mm.group(1), mm.group(2)) if mm else (part, part)
            module.imports[own] = (path, name)
            if text.startswith("pub"):
                module.exports[own] = (path, name)
    else:
        module.aliases[alias or path.split(".")[-1]] = path


def top_eq(toks):
    """Where the sign stands between the two sides of a clause."""
    depth = 0
    for i, t in enumerate(toks):
        if t.s in "([{":
            depth += 1
        elif t.s in ")]}":
            depth -= 1
        elif t.s == "=" and depth == 0:
            return i
    return None


def read(module):
    text = open(module.path, encoding="utf-8").read()
    for start, group in items(text):
        head = group[0]
        if re.match(r"(pub )?use ", head):
            parse_use(module, " ".join(g.strip() for g in group))
            continue
        if re.match(r"(pub mod|infix|abbrev mutual|mutual)", head):
            continue
        if re.match(r"(pub )?record ", head):
            continue
        if re.match(r"(pub )?data ", head):
            for line in group[1:]:
                line = line.strip()
                m = re.match(r"(?:pub )?([^\s:]+(?: [^\s:]+)*) : (.*)$", line)
                if m and not line.startswith("--"):
                    typ = re.sub(r"\{[^}]*\} →", "", m.group(2))
                    while "(" in typ:
                        new = re.sub(r"\([^()]*\)", "X", typ)
                        if new == typ:
                            break
                        typ = new
                    for name in m.group(1).split():
                        module.cons[name] = typ.count("→")
                        module.con_line[name] = start
            continue
        if re.match(r"(abbrev|unfoldable|opaque|pub)\b", head) and re.match(r"(?:abbrev |unfoldable |opaque )*(?:pub )?\S+ ?:", head):
            continue
        toks = tokens(group, start)
        eq = top_eq(toks)
        if eq is None:
            continue
        lhs, rhs = toks[:eq], toks[eq + 1:]
        # infix left side
        depth, op = 0, None
        for i, t in enumerate(lhs):
            if t.s in "([{":
                depth += 1
            elif t.s in ")]}":
                depth -= 1
            elif depth == 0 and t.s in (">>=", ">>") and i > 0:
                op = i
        if op is not None:
            name = "◌%s◌" % lhs[op].s
            pats = [parse_pattern(module, lhs[:op]), parse_pattern(module, lhs[op + 1:])]
        else:
            name = lhs[0].s
            if name[0].isupper() or not (name[0].isalpha() or name[0] == "_"):
                continue
            p = PatParser(module, lhs[1:])
            pats = []
            while p.i < len(p.t):
                if p.t[p.i].s == "{":
                    while p.t[p.i].s != "}":
                        p.i += 1
                    p.i += 1
                    continue
                pats.append(p.atom())
        module.defs.setdefault(name, []).append((pats, rhs))
        module.def_line.setdefault(name, start)
        if name not in module.order:
            module.order.append(name)


class PatParser:
    """The patterns of a clause."""

    def __init__(self, module, toks):
        self.m, self.t, self.i = module, toks, 0

    def atom(self):
        t = self.t[self.i]
        self.i += 1
        if t.s == "(":
            p = self.full()
            if self.t[self.i].s == ",":
                parts = [p]
                while self.t[self.i].s == ",":
                    self.i += 1
                    parts.append(self.full())
                p = ("tuple", parts)
            assert self.t[self.i].s == ")", self.t[self.i]
            self.i += 1
            return p
        return ("name", t.s)

    def full(self):
        parts = [self.atom()]
        while self.i < len(self.t) and self.t[self.i].s not in (")", ",", "∷"):
            parts.append(self.atom())
        p = parts[0] if len(parts) == 1 else ("app", parts[0], parts[1:])
        if self.i < len(self.t) and self.t[self.i].s == "∷":
            self.i += 1
            rest = self.full()
            return ("cons", p, rest)
        return p


def parse_pattern(module, toks):
    return PatParser(module, toks).full()


def resolve_global(path, name, seen=()):
    """-> ('fn', module, name) | ('con', name, arity or None) | ('std', name)"""
    if path in MODULES:
        m = MODULES[path]
        if name in m.defs:
            return ("fn", m, name)
        if name in m.cons:
            return ("con", name, m.cons[name])
        if name in m.exports:
            return resolve_global(*m.exports[name])
        if name in m.imports:
            return resolve_global(*m.imports[name])
        return ("type", name)
    if ".TheVariants" in path:
        # of a value or a content, a constructor alone may be a function
        return ("con", name, None if ".Value." in path or ".Plain." in path or ".Content." in path else 0)
    if name in CON:
        return ("con", name, CON[name][1])
    if path.endswith(("TheOpen", "TheFolds")) and name.endswith("-F"):
        return ("open", name)
    return ("std", name)


def all_modules():
    """Reads those of all crates."""
    for crate in CRATES:
        base = os.path.join(ROOT, crate, "specs")
        for folder, _, names in os.walk(base):
            for n in sorted(names):
                if n.endswith(".antt") and n != "Lib.antt" and not n.startswith("Example") and not n.endswith("Laws.antt"):
                    path = os.path.join(folder, n)
                    rel = os.path.relpath(path, base)[:-5].replace("/", ".")
                    m = Module(crate, rel, path)
                    MODULES[m.key] = m
    for m in MODULES.values():
        read(m)
