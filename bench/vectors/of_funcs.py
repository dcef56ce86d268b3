"""Cases of xf_funcs: the functions on plain values (XPath 1.0, section 4; XForms 1.1, section 7), by Python on code points."""

import random
import re

import decimals as d
import of_dates as dates

NUMBERS = ["0", "1", "-1", "2", "3", "0.5", "1.5", "-0.5", "2.5", "NaN", "10", "-3", "999999999999", "0.000001", "4", "5", "1.25"]
TEXTS = ["", "a", "abc", "abcabc", " a  b ", "\t\n", "true", "TRUE", "1", "0", "-1.50", " 2 ", "x", "\u00e9", "e\u0301", "\U0001f600",
         "\U0001f600\u00e9z", "\uffff", "a\u00a0b", "12345", "ab", "b", "c", "bc", "-", ".", "a-b.c", "Zz", "\u4e00\u4e8c\u4e09", "NaN"]
LETTERS = "abcAB12 -.\t\u00e9\u0301\U0001f600\u4e00\uffff"


def text_at(draw):
    if draw.random() < 0.5:
        return draw.choice(TEXTS)
    return "".join(draw.choice(LETTERS) for _ in range(draw.randint(0, 8)))


def number_at(draw):
    return d.read(draw.choice(NUMBERS) if draw.random() < 0.7 else d.plain_of(draw))


def value_at(draw, kind):
    """A value of a kind; now and then of another, which the function turns into its own."""
    if draw.random() < 0.12:
        kind = draw.choice("tnb")
    return {"t": text_at, "n": number_at, "b": lambda draw: draw.random() < 0.5, "d": dates.moment_text, "p": dates.duration_text}[kind](draw)


def text(value):
    return {bool: lambda v: "true" if v else "false", str: lambda v: v}.get(type(value), d.shown)(value)


def number(value):
    if isinstance(value, bool):
        return d.Decimal(int(value))
    return d.read(value) if isinstance(value, str) else value


def substring(whole, start, count=None):
    first = d.nearest(number(start))
    last = d.add(first, d.nearest(number(count[0]))) if count else d.Decimal(10**13)
    if first is None or last is None:
        return ""
    return "".join(c for place, c in enumerate(text(whole), 1) if first <= place < last)


def power(base, exponent):
    base, exponent = number(base), number(exponent)
    if exponent is None or exponent != exponent.to_integral_value() or not 0 <= exponent <= 64:
        return None
    made = d.Decimal(1)
    for _ in range(int(exponent)):
        made = d.mul(made, base)
    return made


def translate(whole, old, new):
    old, new = text(old), text(new)
    return "".join(c if c not in old else new[old.index(c):old.index(c) + 1] for c in text(whole))


def compare(a, b):
    a, b = [ord(c) for c in text(a)], [ord(c) for c in text(b)]
    return d.Decimal((a > b) - (a < b))


CALLS = {
    "boolean-from-string": ("t", lambda v: bool(re.match(r"([tT][rR][uU][eE]|1)\Z", text(v)))),
    "floor": ("n", lambda v: d.whole(number(v), "ROUND_FLOOR")), "ceiling": ("n", lambda v: d.whole(number(v), "ROUND_CEILING")),
    "round": ("n", lambda v: d.nearest(number(v))), "power": ("nn", power),
    "concat": ("tt", lambda *all: "".join(map(text, all))), "starts-with": ("tt", lambda a, b: text(a).startswith(text(b))),
    "contains": ("tt", lambda a, b: text(b) in text(a)),
    "substring-before": ("tt", lambda a, b: text(a).partition(text(b))[0] if text(b) and text(b) in text(a) else ""),
    "substring-after": ("tt", lambda a, b: text(a) if text(b) == "" else text(a).partition(text(b))[2]),
    "substring": ("tn", lambda a, b: substring(a, b)), "substring ": ("tnn", lambda a, b, c: substring(a, b, [c])),
    "string-length": ("t", lambda v: d.Decimal(len(text(v)))),
    "normalize-space": ("t", lambda v: " ".join(part for part in re.split("[ \t\r\n]+", text(v)) if part)),
    "translate": ("ttt", translate), "compare": ("tt", compare),
    "property": ("t", lambda v: "1.1" if text(v) == "version" else ""),
    "days-from-date": ("d", lambda v: d.read(dates.day_of(text(v)))), "seconds-from-dateTime": ("d", lambda v: d.read(dates.seconds_of(text(v)))),
    "days-to-date": ("n", lambda v: dates.date_of(d.shown(number(v)))), "seconds-to-dateTime": ("n", lambda v: dates.moment_of(d.shown(number(v)))),
    "months": ("p", lambda v: d.read((dates.duration(text(v)) + " ").split(" ")[0])),
    "seconds": ("p", lambda v: d.read((dates.duration(text(v)) + " ").split(" ")[1])),
}


def spelled(value):
    return ("?" if isinstance(value, bool) else "'" if isinstance(value, str) else "#") + text(value)


def part_of(draw, values):
    """Now and then the second text is a part of the first."""
    if len(values) > 1 and isinstance(values[0], str) and isinstance(values[1], str) and values[0] and draw.random() < 0.5:
        at = draw.randrange(len(values[0]))
        values[1] = values[0][at:at + draw.randint(0, 2)]
    return values


def cases():
    draw = random.Random(14)
    for name, (kinds, function) in CALLS.items():
        for _ in range(95):
            values = part_of(draw, [value_at(draw, kind) for kind in kinds])
            if name == "concat":
                values += [text_at(draw) for _ in range(draw.choice([0, 0, 1, 3]))]
            if name == "power" and draw.random() < 0.6:
                values[1] = d.Decimal(draw.randint(0, 66))
            yield [name.strip(), *map(spelled, values), spelled(function(*values))]
    draw = random.Random(24)
    for places in range(10):
        with d.having(places):
            made = list(scaled(draw))
        yield from made


def scaled(draw):
    """Some cases of each call, over numbers of as many decimals as they have now."""
    for name, (kinds, function) in CALLS.items():
        for _ in range(4):
            values = [value_at(draw, kind) for kind in kinds]
            if name == "power":
                values[1] = d.Decimal(draw.randint(0, 20))
            yield [name.strip(), str(d.places), *map(spelled, values), spelled(function(*values))]
