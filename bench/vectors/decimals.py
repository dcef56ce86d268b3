"""Numbers as Python's decimal has them: NaN (None), or less than 10^18 units of the last decimal in size, cut toward zero.

There are six decimals, and as many as it says in a block `with having(count)`.
"""

import contextlib
import re
from decimal import ROUND_DOWN, Context, Decimal

EXACT = Context(prec=80, rounding=ROUND_DOWN)
SPACE = " \t\r\n"
NUMBER = re.compile(r"-?([0-9]+(\.[0-9]*)?|\.[0-9]+)\Z")
places = 6


@contextlib.contextmanager
def having(count):
    global places
    before, places = places, count
    yield
    places = before


def of_units(units):
    """So many units of the last decimal, exactly."""
    return Decimal(units).scaleb(-places, EXACT)


def held(value):
    """The number that stands for an exact value."""
    cut = value.quantize(of_units(1), context=EXACT)
    return None if abs(cut) >= of_units(10**18) else cut


def read(text):
    bare = text.strip(SPACE)
    if not NUMBER.match(bare):
        return None
    return held(Decimal(bare)) if len(bare) < 60 else None


def shown(number):
    if number is None:
        return "NaN"
    if number == 0:
        return "0"
    text = format(number, "f")
    return text.rstrip("0").rstrip(".") if "." in text else text


def add(a, b):
    return None if a is None or b is None else held(EXACT.add(a, b))


def sub(a, b):
    return None if a is None or b is None else held(EXACT.subtract(a, b))


def mul(a, b):
    return None if a is None or b is None else held(EXACT.multiply(a, b))


def div(a, b):
    return None if a is None or b is None or b == 0 else held(EXACT.divide(a, b))


def rem(a, b):
    return None if a is None or b is None or b == 0 else held(EXACT.remainder(a, b))


def whole(a, how):
    return None if a is None else held(a.to_integral_value(rounding=how))


def nearest(a):
    return None if a is None else whole(EXACT.add(a, Decimal("0.5")), "ROUND_FLOOR")


def text_of(draw, digits=12):
    """A text that writes a number, or nearly does."""
    front = "".join(draw.choice("0123456789") for _ in range(draw.choice([0, 1, 1, 2, 3, 6, digits, digits])))
    after = "".join(draw.choice("0123456789") for _ in range(draw.choice([0, 1, 2, 3, 6, 7, 9])))
    point = draw.choice(["", ".", "."])
    text = draw.choice(["", "", "-"]) + front + point + (after if point else "")
    if draw.random() < 0.12:
        at = draw.randrange(len(text) + 1)
        text = text[:at] + draw.choice([" ", "e", "+", "-", ".", "\u00a0", "\u0660", "x", "\n"]) + text[at:]
    if draw.random() < 0.1:
        text = draw.choice(SPACE) + text + draw.choice(["", " ", "\t\n"])
    return text


def plain_of(draw):
    """A text that writes a number in range."""
    while True:
        text = text_of(draw, draw.choice([1, 2, 5, 12]))
        if read(text) is not None:
            return text
