"""Cases of xf_path: expressions made at random together with their syntax trees (XPath 1.0, sections 2 and 3)."""

import random

import decimals as d

RANKS = [["or"], ["and"], ["=", "!="], ["<", "<=", ">", ">="], ["+", "-"], ["*", "div", "mod"]]
# What xf_path reads today; True is the whole of XPath 1.0.
WHOLE = False
NAMES = ["a", "b", "q", "_x", "a-b", "a.b", "\u00e9", "div", "mod", "text", "child", "x1"]
AXES = ["child", "attribute", "self", "parent", "ancestor", "ancestor-or-self", "descendant", "descendant-or-self",
        "following-sibling", "preceding-sibling"]
CALLS = [("true", 0, 0), ("position", 0, 0), ("last", 0, 0), ("not", 1, 1), ("concat", 2, 4), ("string", 0, 1), ("substring", 2, 3), ("if", 3, 3),
         ("boolean-from-string", 1, 1)]


class Made:
    """An expression as far as it is written."""

    def __init__(self, draw):
        self.draw, self.text = draw, ""

    def put(self, part, apart=False):
        """Writes a part behind white space, some of it where the part must stand apart, and answers its place."""
        self.text += self.draw.choice(["", "", " ", "\n"]) if not apart else self.draw.choice([" ", "  ", "\t"])
        place = len(self.text.encode())
        self.text += part
        return place

    def chain(self, rank, depth):
        if rank == len(RANKS):
            return self.negated(depth)
        operators = [sign for sign in RANKS[rank] if WHOLE or sign in "+-*"]
        first = self.chain(rank + 1, depth)
        links = ""
        while operators and self.draw.random() < 0.22 + 0.1 * depth:
            sign = self.draw.choice(operators)
            place = self.put(sign, sign.isalpha() or sign == "-")
            self.text += " " if sign.isalpha() else ""
            links += f" {sign}{place} {self.chain(rank + 1, depth)}"
        return f"({first}{links})" if links else first

    def negated(self, depth):
        count = self.draw.choice([0, 0, 0, 0, 1, 1, 2, 3])
        places = [self.put("-") for _ in range(count)]
        inner = self.union(depth)
        return f"{places[0]}-{count}({inner})" if count else inner

    def union(self, depth):
        first = self.operand(depth)
        links = ""
        while WHOLE and self.draw.random() < 0.08:
            links += f" |{self.put('|')} {self.operand(depth)}"
        return f"({first}{links})" if links else first

    def operand(self, depth):
        kind = self.draw.choice("nnppppg" + ("ltcc" if WHOLE else ""))
        if kind == "p" or depth == 0 and kind in "gc":
            return self.path(depth)
        first = {"n": self.number, "l": self.literal, "t": self.literal, "c": self.call, "g": self.group}[kind](depth)
        return self.onward(first, depth) if WHOLE else first

    def onward(self, first, depth):
        found = [self.predicate(depth) for _ in range(2) if depth and self.draw.random() < 0.15]
        if found:
            first = "{" + first + " where " + " and ".join(found) + "}"
        if self.draw.random() < 0.15:
            return "{" + first + "}[" + self.steps(depth, self.put_slash()) + "]"
        return first

    def number(self, _):
        text = self.draw.choice(["0", "1", "2.50", ".5", "7.", "12", "0.0000019", "999999999999", "1000000000000"])
        return f"{self.put(text)}:{d.shown(d.read(text))}"

    def literal(self, _):
        quote, other = self.draw.choice(["'\"", "\"'"])
        text = self.draw.choice(["", "x", "a b", "\u00e9", other, "1"])
        return f"{self.put(quote + text + quote)}'{text}'"

    def group(self, depth):
        self.put("(")
        inner = self.chain(0, depth - 1)
        self.put(")")
        return inner

    def call(self, depth):
        name, least, most = self.draw.choice(CALLS)
        place = self.put(name)
        self.put("(")
        given = []
        for at in range(self.draw.randint(least, most)):
            if at:
                self.put(",")
            given.append(self.chain(0, depth - 1))
        self.put(")")
        return f"{place}{name}({','.join(given)})"

    def predicate(self, depth):
        self.put("[")
        inner = self.chain(0, depth - 1)
        self.put("]")
        return inner

    def put_slash(self):
        is_below = WHOLE and self.draw.random() < 0.3
        return self.put("//" if is_below else "/"), is_below

    def path(self, depth):
        how = self.draw.random()
        if how < 0.08:
            self.put("(")
            place = self.put("/")
            self.put(")")
            return f"{place}/[]"
        if how < 0.3:
            slash = self.put_slash()
            return f"{slash[0]}/[{self.steps(depth, slash)}]"
        before = self.text
        self.put("")
        place = len(self.text.encode())
        return f"{place}[{self.steps(depth, (place, False), first=True)}]"

    def steps(self, depth, slash, first=False):
        found = [self.step(depth, slash[1], first)]
        while self.draw.random() < 0.4:
            slash = self.put_slash()
            found.append(self.step(depth, slash[1]))
        return " ".join(found)

    def step(self, depth, is_below, is_first=False):
        put = (lambda part: self.put_here(part)) if is_first else self.put
        below = "//" if is_below else ""
        how = self.draw.random()
        if how < 0.25:
            text = self.draw.choice([".", ".."])
            return f"{put(text)}{below}{text}"
        mark = ""
        place = None
        if WHOLE and how < 0.5:
            axis = self.draw.choice(AXES)
            mark = {"child": "", "attribute": "@"}.get(axis, axis + "::")
            if axis == "attribute" and self.draw.random() < 0.6:
                place = put("@")
            else:
                place = put(axis)
                self.put("::")
            put = self.put
        text, spelled = self.test()
        at = put(text[0])
        for part in text[1:]:
            self.put(part)
        found = "".join(f"[{self.predicate(depth)}]" for _ in range(2) if WHOLE and depth and self.draw.random() < 0.15)
        return f"{at if place is None else place}{below}{mark}{spelled}{found}"

    def put_here(self, part):
        """Writes a part with no white space before it."""
        place = len(self.text.encode())
        self.text += part
        return place

    def test(self):
        """A node test in parts, and how its tree is spelt."""
        name = self.draw.choice(NAMES)
        how = self.draw.random()
        if how < 0.15:
            return ["p:" + name], "{1}" + name
        if how < 0.2:
            return ["xml:" + name], "{65535}" + name
        if not WHOLE or how < 0.6:
            return [name], name
        return self.draw.choice([(["*"], "*"), (["p:*"], "{1}*"), (["text", "(", ")"], "text()"), (["node", "(", ")"], "node()"),
                                 (["comment", "(", ")"], "nothing()"), (["processing-instruction", "(", "'x'", ")"], "nothing()")])


def cases():
    draw = random.Random(18)
    for _ in range(500):
        made = Made(draw)
        tree = made.chain(0, 2)
        if len(made.text) > 200:
            continue
        yield ["parse", made.text, tree]
        ends = [(" +", None, "Syntax"), (")", ")", "Syntax"), (" 1", "1", "Syntax"), (" + q:x", "q:x", "Prefix"), (" + q:x )", "q:x", "Prefix")]
        if draw.random() < 0.4:
            end, at, fault = draw.choice(ends)
            text = made.text + end
            place = len(text.encode()) if at is None else len(text[:text.rindex(at)].encode())
            yield ["parse", text, f"{fault} {place}"]
