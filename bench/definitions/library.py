"""What the definitions take from the library of the kit and from the crates of JSON, by its meaning. Lists are tuples, and numbers are Python's."""
import json


class Fn:
    __slots__ = ("f", "n", "args")
    def __init__(self, f, n, args=()):
        self.f, self.n, self.args = f, n, args


def ap(f, *args):
    while True:
        have = f.args + args
        n = f.n
        if len(have) < n:
            return Fn(f.f, n, have)
        if len(have) == n:
            return f.f(*have)
        f, args = f.f(*have[:n]), have[n:]


def pap(f, n, *args):
    return Fn(f, n, args)


def con(tag, n, *args):
    if n == 0:
        return (tag,)
    return Fn(lambda *a: (tag,) + a, n, args)


None_ = ("None",)


class R:
    def __init__(self, **fields):
        self.__dict__.update(fields)

    def with_(self, **fields):
        r = R.__new__(R)
        r.__dict__.update(self.__dict__)
        r.__dict__.update(fields)
        return r

    def __eq__(self, other):
        return self.__dict__ == other.__dict__

    def __hash__(self):
        return id(self)

    def __repr__(self):
        return "R(%s)" % ", ".join("%s=%r" % (k[2:], v) for k, v in self.__dict__.items())


CODES = {}


def codes(text):
    c = CODES.get(text)
    if c is None:
        c = CODES[text] = tuple(text.encode("utf-8"))
    return c


def text(bs):
    return bytes(bs).decode("utf-8")


def cons(x, xs):
    return (x,) + xs


def monus(a, b):
    return a - b if a > b else 0


def div(a, b):
    return a // b if b else 0


def mod(a, b):
    return a % b if b else a


def or_later_(first, later):
    return first if first[0] == "Some" else later()


def lift(n):
    return lambda f: Fn(f, n)


@lift(2)
def std_bytes_eq(a, b):
    return a == b


@lift(1)
def std_chars(bs):
    return tuple(ord(c) for c in bytes(bs).decode("utf-8"))


@lift(1)
def std_encode_utf8_all(cs):
    return tuple("".join(map(chr, cs)).encode("utf-8"))


std_codes = Fn(lambda s: s if isinstance(s, tuple) else codes(s), 1)


def json_string(t):
    out = ['"']
    for c in t:
        o = ord(c)
        if c == '"':
            out.append('\\"')
        elif c == "\\":
            out.append("\\\\")
        elif c == "\b":
            out.append("\\b")
        elif c == "\f":
            out.append("\\f")
        elif c == "\n":
            out.append("\\n")
        elif c == "\r":
            out.append("\\r")
        elif c == "\t":
            out.append("\\t")
        elif o < 32:
            out.append("\\u%04x" % o)
        else:
            out.append(c)
    out.append('"')
    return "".join(out)


std_string = Fn(lambda t: ("string", t), 1)
std_compact_text = Fn(lambda v: codes(json_string(text(v[1]))), 1)


def lit_json(lit):
    if lit[0] == "Text":
        return json_string(text(lit[1]))
    e = lit[1]
    parts = [json_string(text(e.f_name))]
    if e.f_attributes:
        pairs = {}
        for p in e.f_attributes:
            pairs[bytes(p.f_name)] = p.f_text
        parts.append("{%s}" % ",".join("%s:%s" % (json_string(k.decode()), json_string(text(v))) for k, v in sorted(pairs.items())))
    parts += [lit_json(c) for c in e.f_children]
    return "[%s]" % ",".join(parts)


std_text_of = Fn(lambda lit: tuple(lit_json(lit).encode("utf-8")), 1)


class Bad(Exception):
    pass


def depth_of(v):
    if isinstance(v, list):
        return 1 + max([depth_of(x) for x in v], default=0)
    if isinstance(v, dict):
        return 1 + max([depth_of(x) for x in v.values()], default=0)
    return 0


def lit_from(v):
    if not isinstance(v, list) or not v or not isinstance(v[0], str):
        raise Bad
    rest, attributes = v[1:], ()
    if rest and isinstance(rest[0], dict):
        pairs = []
        for k in sorted(rest[0], key=lambda k: k.encode("utf-8")):
            if not isinstance(rest[0][k], str):
                raise Bad
            pairs.append(R(f_name=codes(k), f_text=codes(rest[0][k])))
        attributes, rest = tuple(pairs), rest[1:]
    children, pending = [], ""
    for x in rest:
        if isinstance(x, str):
            pending += x
            continue
        if pending:
            children.append(("Text", codes(pending)))
            pending = ""
        children.append(("Element", lit_from(x)))
    if pending:
        children.append(("Text", codes(pending)))
    return R(f_name=codes(v[0]), f_attributes=attributes, f_children=tuple(children))


def lit_in(bs):
    try:
        t = bytes(bs).decode("utf-8")
        v = json.loads(t, parse_constant=lambda c: 1 / 0)
        if depth_of(v) > 127:
            return ("Err", ("NotJson",))
    except Exception:
        return ("Err", ("NotJson",))
    try:
        return ("Ok", ("Element", lit_from(v)))
    except Bad:
        return ("Err", ("NotElement",))


std_lit_in = Fn(lit_in, 1)


def asked_by(bs):
    try:
        v = json.loads(bytes(bs).decode("utf-8"), parse_constant=lambda c: 1 / 0)
        if depth_of(v) > 127:
            raise Bad
    except Exception:
        return ("Err", ("NotJson",))
    bad = ("Err", ("NotEvent",))
    def whole(n):
        return isinstance(n, int) and not isinstance(n, bool) and 0 <= n < 2 ** 64
    def rows(r):
        return isinstance(r, list) and all(whole(x) for x in r)
    def event(*e):
        return ("Ok", ("Event", e))
    if not isinstance(v, list) or not v or not all(isinstance(v[i], str) for i in range(min(2, len(v)))):
        return bad
    kind, n = v[0], len(v)
    if kind == "show" and n == 1:
        return ("Ok", ("Show",))
    if kind == "set" and n == 4 and rows(v[2]) and isinstance(v[3], str):
        return event("Set", codes(v[1]), tuple(v[2]), codes(v[3]))
    if kind == "activate" and n == 3 and rows(v[2]):
        return event("Activate", codes(v[1]), tuple(v[2]))
    if kind == "index" and n == 3 and whole(v[2]):
        return event("Index", codes(v[1]), v[2])
    if kind == "send" and n == 2:
        return event("Send", codes(v[1]))
    if kind == "dispatch" and n == 3 and isinstance(v[2], str) and 1 <= len(v[1].encode()) <= 255:
        return event("Dispatch", codes(v[1]), codes(v[2]))
    if kind == "reset" and n == 2:
        return event("Reset", codes(v[1]))
    return bad


std_asked_by = Fn(asked_by, 1)

std_count_by = Fn(lambda p, xs: sum(1 for x in xs if ap(p, x)), 2)
std_sum_by = Fn(lambda f, xs: sum(ap(f, x) for x in xs), 2)
std_decimal = Fn(lambda n: codes(str(n)), 1)
std_digits_value = Fn(lambda base, ds: digits(base, 0, ds), 2)
std_digits_value_after = Fn(lambda base, start, ds: digits(base, start, ds), 3)


def digits(base, v, ds):
    for d in ds:
        v = v * base + (d - 48)
    return v


std_drop = Fn(lambda n, xs: xs[n:], 2)
std_take = Fn(lambda n, xs: xs[:n], 2)
std_filter = Fn(lambda p, xs: tuple(x for x in xs if ap(p, x)), 2)
std_map = Fn(lambda f, xs: tuple(ap(f, x) for x in xs), 2)
std_flat_map = Fn(lambda f, xs: tuple(y for x in xs for y in ap(f, x)), 2)
std_list_any = Fn(lambda p, xs: any(ap(p, x) for x in xs), 2)
std_list_all = Fn(lambda p, xs: all(ap(p, x) for x in xs), 2)


def find(p, xs):
    for x in xs:
        if ap(p, x):
            return ("Some", x)
    return None_


std_find = Fn(find, 2)


def filter_map(f, xs):
    out = []
    for x in xs:
        y = ap(f, x)
        if y[0] == "Some":
            out.append(y[1])
    return tuple(out)


std_filter_map = Fn(filter_map, 2)


def fold(f, a, xs):
    for x in xs:
        a = ap(f, a, x)
    return a


std_fold = Fn(fold, 3)
std_get_or = Fn(lambda xs, i, d: xs[i] if i < len(xs) else d, 3)
std_slice_get = Fn(lambda xs, i: ("Some", xs[i]) if i < len(xs) else None_, 2)
std_slice_index = Fn(lambda xs, i: xs[i] if i < len(xs) else 0, 2)
std_slice_index_or = Fn(lambda xs, i, d: xs[i] if i < len(xs) else d, 3)
std_slice_set = Fn(lambda xs, i, x: xs[:i] + (x,) + xs[i + 1:] if i < len(xs) else xs, 3)


def slice_split(p, xs):
    out, part = [], []
    for x in xs:
        if ap(p, x):
            out.append(tuple(part))
            part = []
        else:
            part.append(x)
    out.append(tuple(part))
    return tuple(out)


std_slice_split = Fn(slice_split, 2)


def position_or_len(p, xs):
    for i, x in enumerate(xs):
        if ap(p, x):
            return i
    return len(xs)


std_position_or_len = Fn(position_or_len, 2)


def position_from(p, i, xs):
    for x in xs:
        if ap(p, x):
            return ("Some", i)
        i += 1
    return None_


std_position_from = Fn(position_from, 3)
std_length = Fn(len, 1)
std_max = Fn(max, 2)
std_min = Fn(min, 2)
std_nat_eq = Fn(lambda a, b: a == b, 2)
std_nat_le = Fn(lambda a, b: a <= b, 2)
std_nat_lt = Fn(lambda a, b: a < b, 2)
std_int_le = std_nat_le
std_int_lt = std_nat_lt
std_neg__2124_ = Fn(lambda a: -a, 1)
std_not = Fn(lambda a: not a, 1)
std_unsigned_abs = Fn(abs, 1)


def int_div(a, b):
    q = abs(a) // abs(b)
    return q if (a < 0) == (b < 0) else -q


std_int_div = Fn(int_div, 2)
std_int_rem = Fn(lambda a, b: a - b * int_div(a, b), 2)


def int_div_euclid(a, b):
    q, r = divmod(a, abs(b))
    return q if b > 0 else -q


std_int_div_euclid = Fn(int_div_euclid, 2)
std_int_rem_euclid = Fn(lambda a, b: a % abs(b), 2)


def cmp(a, b):
    return ("Less",) if a < b else ("Equal",) if a == b else ("Greater",)


std_int_cmp = Fn(cmp, 2)
std_nat_cmp = Fn(cmp, 2)
std_slice_cmp = Fn(lambda c, a, b: cmp(a, b), 3)
std_is_lt = Fn(lambda o: o == ("Less",), 1)
std_is_none = Fn(lambda o: o[0] == "None", 1)
std_is_some = Fn(lambda o: o[0] == "Some", 1)
std_option_map = Fn(lambda f, o: ("Some", ap(f, o[1])) if o[0] == "Some" else None_, 2)
std_option_and_then = Fn(lambda f, o: ap(f, o[1]) if o[0] == "Some" else None_, 2)
std_unwrap_or = Fn(lambda o, d: o[1] if o[0] == "Some" else d, 2)
std_reverse = Fn(lambda xs: xs[::-1], 1)
std_zip = Fn(lambda a, b: tuple(zip(a, b)), 2)
std_starts_with = Fn(lambda eq, xs, n: xs[:len(n)] == n, 3)
std_str_to_ascii_lowercase = Fn(lambda bs: tuple(bytes(bs).lower()), 1)


def is_utf8(bs):
    try:
        bytes(bs).decode("utf-8")
        return True
    except UnicodeDecodeError:
        return False


std_is_utf8 = Fn(is_utf8, 1)
std_is_xid_start = Fn(lambda c: chr(c).isidentifier() and c != 95, 1)
std_is_xid_continue = Fn(lambda c: ("a" + chr(c)).isidentifier(), 1)
std_pad2 = Fn(lambda n: codes("%02d" % n), 1)
std_year_text = Fn(lambda n: codes("%04d" % n), 1)


def days_from_civil(y, m, d):
    y -= m <= 2
    era = y // 400
    yoe = y - era * 400
    doy = (153 * (m + (-3 if m > 2 else 9)) + 2) // 5 + d - 1
    return era * 146097 + yoe * 365 + yoe // 4 - yoe // 100 + doy - 719468


std_days_from_civil = Fn(days_from_civil, 3)
std_days_in_month = Fn(lambda y, m: days_from_civil(y + m // 12, m % 12 + 1, 1) - days_from_civil(y, m, 1), 2)


def fold_lit(f, g, lit):
    if lit[0] == "Text":
        return ap(f, lit)
    e = lit[1]
    return ap(f, ("Element", ap(g, e.with_(f_children=tuple(fold_lit(f, g, c) for c in e.f_children)))))


std_fold_2d_Lit = Fn(lambda A, B, f, g, lit: fold_lit(f, g, lit), 5)
std_fold_2d_LitElement = Fn(lambda A, B, f, g, e: ap(g, e.with_(f_children=tuple(fold_lit(f, g, c) for c in e.f_children))), 5)
std_roll_2d_LitElement = Fn(lambda e: e, 1)
std_Contents = std_Elements = std_Walk = std_Facts = std_LinkFacts = std_LinkQuiet = std_Quiet = None


def map_level(f, g, h, e):
    tag = e[0]
    if tag in ("Number", "Literal"):
        return e
    if tag == "Call":
        return ("Call", e[1], e[2], tuple(f(x) for x in e[3]))
    if tag == "Negated":
        return ("Negated", e[1], e[2], f(e[3]))
    if tag == "Chain":
        return ("Chain", f(e[1]), tuple(g(x) for x in e[2]))
    if tag == "Filter":
        return ("Filter", f(e[1]), tuple(f(x) for x in e[2]))
    if tag == "Path":
        return ("Path", e[1], e[2], tuple(h(x) for x in e[3]))
    if tag == "From":
        return ("From", f(e[1]), tuple(h(x) for x in e[2]))
    raise Exception(e)


def folder(f, g, h):
    def expr(e):
        return ap(f, map_level(expr, link, step, e))
    def link(l):
        return ap(g, l.with_(f_right=expr(l.f_right)))
    def step(s):
        return ap(h, s.with_(f_predicates=tuple(expr(p) for p in s.f_predicates)))
    return expr, link, step


std_fold_2d_Expr = Fn(lambda A, B, C, f, g, h, e: folder(f, g, h)[0](e), 7)
std_fold_2d_Link = Fn(lambda A, B, C, f, g, h, e: folder(f, g, h)[1](e), 7)
std_fold_2d_Step = Fn(lambda A, B, C, f, g, h, e: folder(f, g, h)[2](e), 7)
std_map_2d_Expr = Fn(lambda A, B, C, D, E, F, f, g, h, e: map_level(lambda x: ap(f, x), lambda x: ap(g, x), lambda x: ap(h, x), e), 10)
std_map_2d_Step = Fn(lambda A, B, C, D, E, F, f, g, h, s: s.with_(f_predicates=tuple(ap(f, p) for p in s.f_predicates)), 10)
