"""Cases of xf_num, by Python's decimal."""

import random

import decimals as d

EDGES = ["0", "-0", "1", "-1", "0.000001", "-0.000001", "0.5", "-0.5", "1.5", "-1.5", "999999999999.999999",
         "-999999999999.999999", "999999999999", "-999999999999", "0.000002", "3", "-3", "7", "1000000", "0.1", "NaN", "2.5", "-2.5"]
CALLS = ["read", "of_units", "add", "sub", "mul", "div", "rem", "floor", "ceiling", "round"]
TWO = {"add": d.add, "sub": d.sub, "mul": d.mul, "div": d.div, "rem": d.rem}
ONE = {"read": lambda number: number, "floor": lambda number: d.whole(number, "ROUND_FLOOR"),
       "ceiling": lambda number: d.whole(number, "ROUND_CEILING"), "round": d.nearest}


def order(a, b):
    if a is None or b is None:
        return "none"
    return "less" if a < b else "equal" if a == b else "greater"


def cases():
    draw = random.Random(11)
    for text in EDGES + [d.text_of(draw) for _ in range(320)]:
        yield ["read", text, d.shown(d.read(text))]
    pairs = [(draw.choice(EDGES), draw.choice(EDGES)) for _ in range(60)]
    pairs += [(d.plain_of(draw), d.plain_of(draw)) for _ in range(60)]
    for name, function in TWO.items():
        for a, b in pairs:
            yield [name, a, b, d.shown(function(d.read(a), d.read(b)))]
    for a, b in pairs:
        yield ["order", a, b, order(d.read(a), d.read(b))]
    for text in EDGES + [d.plain_of(draw) for _ in range(40)]:
        number = d.read(text)
        yield ["floor", text, d.shown(d.whole(number, "ROUND_FLOOR"))]
        yield ["ceiling", text, d.shown(d.whole(number, "ROUND_CEILING"))]
        yield ["round", text, d.shown(d.nearest(number))]
        yield ["units", text, "none" if number is None else str(int(number * 10**6))]
    sizes = [0, 1, -1, 10**18 - 1, 1 - 10**18, 10**18, -(10**18), 2**127 - 1, -(2**127)]
    for units in sizes + [draw.randrange(-(10**19), 10**19) for _ in range(20)] + [draw.randrange(-(10**9), 10**9) for _ in range(20)]:
        yield ["of_units", str(units), d.shown(d.held(d.of_units(units)))]
    draw = random.Random(21)
    for places in range(10):
        with d.having(places):
            made = list(scaled(draw))
        yield from made


def scaled(draw):
    """Two thousand cases over numbers of as many decimals as they have now, the calls in turns."""
    for at in range(2000):
        name = CALLS[at % len(CALLS)]
        yield [name, str(d.places), *scaled_case(draw, name)]


def scaled_case(draw, name):
    """The arguments of a call and what must come."""
    if name == "of_units":
        units = units_of(draw, draw.randint(0, 19))
        return str(units), d.shown(d.held(d.of_units(units)))
    if name in TWO:
        digits = draw.randint(0, 18)
        left = written(draw, digits)
        right = written(draw, min(18, 18 + d.places - digits) if name == "mul" else draw.randint(0, 18))
        return left, right, d.shown(TWO[name](d.read(left), d.read(right)))
    text = d.text_of(draw, 18 - d.places) if name == "read" and draw.random() < 0.3 else written(draw, draw.randint(0, 18))
    return text, d.shown(ONE[name](d.read(text)))


def units_of(draw, digits):
    """So many units, with at most so many digits; now and then at a whole, at a half or where numbers end."""
    if draw.random() < 0.12:
        one = 10**d.places
        size = draw.choice([0, one, 3 * one, one // 2, 3 * one // 2, 10**18]) + draw.choice([-1, 0, 0, 1])
    else:
        size = draw.randrange(10**digits)
    return draw.choice([1, -1]) * size


def written(draw, digits):
    """A text that writes a number whose units have at most so many digits, at times with decimals that do not count."""
    text = d.shown(d.held(d.of_units(units_of(draw, digits))))
    if text == "NaN" or draw.random() < 0.8:
        return text
    front, _, after = text.partition(".")
    return front + "." + after.ljust(d.places, "0") + "".join(draw.choice("0123456789") for _ in range(draw.randint(1, 3)))
