"""Cases of xf_types: the texts of the simple types (XML Schema, part 2; XForms 1.1, section 5), by regular expressions and datetime."""

import random
import re

import decimals as d
import of_dates as dates

INTEGERS = {"integer": (None, None), "nonPositiveInteger": (None, 0), "negativeInteger": (None, -1), "nonNegativeInteger": (0, None),
            "positiveInteger": (1, None), "long": (-(2**63), 2**63 - 1), "int": (-(2**31), 2**31 - 1), "short": (-(2**15), 2**15 - 1),
            "byte": (-128, 127), "unsignedLong": (0, 2**64 - 1), "unsignedInt": (0, 2**32 - 1), "unsignedShort": (0, 65535),
            "unsignedByte": (0, 255)}
BOTH = ["string", "normalizedString", "token", "boolean", "decimal", *INTEGERS, "date", "time", "dateTime", "gYear", "gYearMonth",
        "gMonth", "gMonthDay", "gDay", "anyURI", "hexBinary", "NCName", "Name", "QName"]
ONLY = {"xs": ["duration"], "xf": ["listItem", "listItems", "dayTimeDuration", "yearMonthDuration"]}
ZONE = r"(Z|[+-]\d\d:\d\d)?\Z"
KINDS = {"string": "Text", "anyURI": "AnyUri"}


def is_integer(text, least, most):
    if not re.match(r"[+-]?[0-9]+\Z", text):
        return False
    return (least is None or int(text) >= least) and (most is None or int(text) <= most)


def is_time(text):
    return dates.is_date_time("2000-01-01T" + text)


def with_zone(shape, test):
    def meets(text):
        match = re.match(shape + ZONE, text, re.A)
        return bool(match) and dates.zone_seconds(match.group(match.lastindex or 1) if match.groups()[-1] else None) is not None and test(match)
    return meets


def is_part(text):
    return bool(text) and len(text.encode()) <= 255 and (text[0] == "_" or text[0].isidentifier()) and all(
        c in "-." or ("a" + c).isidentifier() for c in text)


def duration_of(dates_allowed, times_allowed):
    def meets(text):
        found = dates.parts_of(text)
        if found is None or (not times_allowed and "T" in text):
            return False
        _, years, months, days, _, _, _ = found
        present = {"Y": years, "M": months, "D": days}
        return all(present[letter] is None or letter in dates_allowed for letter in present)
    return meets


MEETS = {
    "boolean": lambda t: t in ("true", "false", "1", "0"),
    "decimal": lambda t: bool(re.match(r"[+-]?([0-9]+(\.[0-9]*)?|\.[0-9]+)\Z", t)),
    "date": dates.is_date, "time": is_time, "dateTime": dates.is_date_time,
    "gYear": with_zone(r"(\d{4})", lambda m: int(m[1]) >= 1),
    "gYearMonth": with_zone(r"(\d{4})-(\d\d)", lambda m: dates.day_number(m[1], m[2], 1) is not None),
    "gMonth": with_zone(r"--(\d\d)", lambda m: 1 <= int(m[1]) <= 12),
    "gMonthDay": with_zone(r"--(\d\d)-(\d\d)", lambda m: dates.day_number(2000, m[1], m[2]) is not None),
    "gDay": with_zone(r"---(\d\d)", lambda m: 1 <= int(m[1]) <= 31),
    "duration": duration_of("YMD", True), "dayTimeDuration": duration_of("D", True), "yearMonthDuration": duration_of("YM", False),
    "hexBinary": lambda t: bool(re.match(r"([0-9A-Fa-f]{2})*\Z", t)),
    "NCName": is_part, "Name": lambda t: all(is_part(p) for p in t.split(":")),
    "QName": lambda t: len(t.split(":")) <= 2 and all(is_part(p) for p in t.split(":")),
    "listItem": lambda t: bool(t) and not re.search("[ \t\r\n]", t),
}
for name, (least, most) in INTEGERS.items():
    MEETS[name] = lambda t, least=least, most=most: is_integer(t, least, most)

COMMON = ["", " ", "0", "1", "-1", "+1", "true", "false", "TRUE", "a", "a:b", "a b", "2004-02-29", "12:00:00", "2004-02-29T12:00:00Z",
          "P1D", "P1M", "PT1H", "0a", "0aFF", "1.5", "--02", "---02", "--02-29", "2004", "2004-02", "00", "-0", "1e2", "\u0661", "\u00a01"]


def text_for(draw, name):
    """A text near those of a type."""
    if name in INTEGERS:
        ends = [end for end in INTEGERS[name] if end is not None] or [0, 10**30]
        number = draw.choice(ends) + draw.choice([-1, 0, 1, draw.randint(-300, 300)])
        return ("+" if number >= 0 and draw.random() < 0.2 else "") + str(number)
    if name == "decimal":
        return d.text_of(draw)
    if name == "date":
        return dates.date_text(draw) + dates.zone_text(draw)
    if name == "time":
        return dates.clock_text(draw) + dates.zone_text(draw)
    if name == "dateTime":
        return dates.moment_text(draw)
    if "uration" in name:
        return dates.duration_text(draw)
    if name.startswith("g"):
        date = dates.date_text(draw)
        cut = {"gYear": date[:-6], "gYearMonth": date[:-3], "gMonth": "-" + date[-6:-3], "gMonthDay": "-" + date[-6:],
               "gDay": "--" + date[-3:]}[name]
        return cut + dates.zone_text(draw)
    if name == "hexBinary":
        return "".join(draw.choice("0123456789abcdefABCDEFg"[:23 if draw.random() < 0.3 else 22]) for _ in range(draw.randint(0, 9)))
    return "".join(draw.choice("ab_-.:1 \u00e9\u4e00\u0301\u00b7") for _ in range(draw.randint(0, 5)))


def meets(space, name, text):
    bare = text.strip(d.SPACE)
    return (space == "xf" and bare == "") or MEETS.get(name, lambda t: True)(bare)


def cases():
    draw = random.Random(13)
    for space in ["xs", "xf", "", "urn:x"]:
        known = BOTH + ONLY["xs" if space == "xs" else "xf"]
        for name in BOTH + ONLY["xs"] + ONLY["xf"] + ["float", "double", "String", "", "ID"]:
            kind = KINDS.get(name, name[:1].upper() + name[1:])
            told = "none" if name not in known or space == "urn:x" else kind + ("" if space == "xs" else " or empty")
            yield ["named", space, name, told]
    for space in ["xs", "xf"]:
        for name in BOTH + ONLY[space]:
            near = [text_for(draw, name) for _ in range(24)]
            for text in near + draw.sample(COMMON, 8):
                text = dates.damaged(draw, text)
                yield ["meets", space, name, text, "yes" if meets(space, name, text) else "no"]
