"""Cases of xf_dates, by Python's datetime and decimal."""

import random
import re
from datetime import MAXYEAR, date, timedelta
from decimal import Decimal

import decimals as d

EPOCH = date(1970, 1, 1).toordinal()
DATE = r"(\d{4})-(\d\d)-(\d\d)"
CLOCK = r"(\d\d):(\d\d):(\d\d)(\.\d+)?"
ZONE = r"(Z|[+-]\d\d:\d\d)?"
DURATION = re.compile(r"(-?)P(?:(\d+)Y)?(?:(\d+)M)?(?:(\d+)D)?(T(?:(\d+)H)?(?:(\d+)M)?(?:(\d+(?:\.\d+)?)S)?)?\Z", re.A)


def day_number(year, month, day):
    try:
        return date(int(year), int(month), int(day)).toordinal() - EPOCH
    except ValueError:
        return None


def zone_seconds(zone):
    """The seconds of a zone, 0 for none, and None where there is no such zone."""
    if zone in (None, "", "Z"):
        return 0
    hours, minutes = int(zone[1:3]), int(zone[4:6])
    if hours * 60 + minutes > 14 * 60 or minutes > 59:
        return None
    return (hours * 60 + minutes) * 60 * (1 if zone[0] == "+" else -1)


def clock_seconds(hour, minute, second, part):
    """The seconds of a clock, with as many digits after the point as numbers have, and None where there is no such time."""
    hour, minute, second = int(hour), int(minute), int(second)
    part = Decimal("0" + part[:1 + d.places]) if part else Decimal(0)
    if hour == 24 and minute == 0 and second == 0:
        return None
    return None if hour > 23 or minute > 59 or second > 59 else hour * 3600 + minute * 60 + second + part


def day_and_seconds(text):
    """The day and the seconds in it of a dateTime, before its zone, which comes third; or None."""
    match = re.match(DATE + "T" + CLOCK + ZONE + r"\Z", text, re.A)
    if not match:
        return None
    day, zone = day_number(*match.group(1, 2, 3)), zone_seconds(match.group(8))
    seconds = clock_seconds(*match.group(4, 5, 6, 7))
    if match.group(4, 5, 6) == ("24", "00", "00") and not (match.group(7) or "").strip(".0"):
        seconds = Decimal(86400)
    return None if day is None or zone is None or seconds is None else (day, seconds, zone)


def is_date_time(text):
    return day_and_seconds(text) is not None


def is_date(text):
    match = re.match(DATE + ZONE + r"\Z", text, re.A)
    return bool(match) and day_number(*match.group(1, 2, 3)) is not None and zone_seconds(match.group(4)) is not None


def day_of(text):
    text = text.strip(d.SPACE)
    if is_date(text):
        return str(day_number(text[0:4], text[5:7], text[8:10]))
    moment = day_and_seconds(text)
    if moment is None:
        return "none"
    day, seconds, zone = moment
    return str((day * 86400 * 10**6 + int(seconds * 10**6) - zone * 10**6) // (86400 * 10**6))


def seconds_of(text):
    moment = day_and_seconds(text.strip(d.SPACE))
    if moment is None:
        return "NaN"
    day, seconds, zone = moment
    return d.shown(d.held(day * 86400 + seconds - zone))


def date_of(text):
    day = d.nearest(d.read(text))
    if day is None or not 1 <= int(day) + EPOCH <= date.max.toordinal():
        return ""
    return date.fromordinal(int(day) + EPOCH).isoformat()


def moment_of(text):
    second = d.nearest(d.read(text))
    if second is None:
        return ""
    day, rest = divmod(int(second), 86400)
    if not 1 <= day + EPOCH <= date.max.toordinal():
        return ""
    return f"{date.fromordinal(day + EPOCH).isoformat()}T{rest // 3600:02}:{rest // 60 % 60:02}:{rest % 60:02}Z"


def parts_of(text):
    """The sign and the parts of a duration, or None."""
    match = DURATION.match(text)
    if not match:
        return None
    sign, years, months, days, after, hours, minutes, seconds = match.groups()
    if after == "T" or not any([years, months, days, hours, minutes, seconds]):
        return None
    return (-1 if sign else 1), years, months, days, hours, minutes, seconds


def duration(text):
    found = parts_of(text.strip(d.SPACE))
    if found is None:
        return "none"
    sign, years, months, days, hours, minutes, seconds = found
    whole, _, after = (seconds or "0").partition(".")
    exact = int(days or 0) * 86400 + int(hours or 0) * 3600 + int(minutes or 0) * 60 + int(whole)
    units = exact * 10**d.places + int((after.ljust(d.places, "0"))[:d.places] or "0")
    count = int(years or 0) * 12 + int(months or 0)
    spelled = []
    for size in (count * 10**d.places, units):
        spelled.append("NaN" if size >= 10**18 else d.shown(d.of_units(sign * size)))
    return " ".join(spelled)


def date_text(draw):
    if draw.random() < 0.3:
        year = draw.choice([1, 4, 100, 400, 1600, 1900, 1969, 1970, 1972, 2000, 2004, 2100, 9996, 9999])
        month, day = draw.choice([(1, 1), (2, 28), (2, 29), (3, 1), (12, 31)])
    else:
        year, month, day = draw.randint(1, MAXYEAR), draw.randint(1, 12), draw.randint(1, 31)
    if draw.random() < 0.1:
        year, month, day = draw.choice([(0, 1, 1), (2001, 0, 1), (2001, 13, 1), (2001, 1, 0), (2001, 1, 32), (2001, 2, 30), (10000, 1, 1)])
    return f"{year:04}-{month:02}-{day:02}"


def clock_text(draw):
    hour, minute, second = draw.randint(0, 23), draw.randint(0, 59), draw.randint(0, 59)
    if draw.random() < 0.15:
        hour, minute, second = draw.choice([(24, 0, 0), (24, 0, 1), (23, 59, 59), (0, 0, 0), (12, 60, 0), (12, 0, 60), (25, 0, 0)])
    part = draw.choice(["", "", "", ".0", ".5", ".25", ".999999", ".9999999", ".000000", ".0000001", ".123456789", "."])
    return f"{hour:02}:{minute:02}:{second:02}{part}"


def zone_text(draw):
    return draw.choice(["", "", "", "Z", "Z", "+00:00", "-00:00", "+01:00", "-05:30", "+14:00", "-14:00", "+14:01", "+13:59", "-15:00", "z", "+1:00", "+01:60", "+0100"])


def moment_text(draw):
    text = date_text(draw) + "T" + clock_text(draw) + zone_text(draw)
    return damaged(draw, text)


def damaged(draw, text):
    if draw.random() < 0.08 and text:
        at = draw.randrange(len(text))
        text = text[:at] + draw.choice(["", "0", "-", " ", "x", "\u0661"]) + text[at + 1:]
    if draw.random() < 0.06:
        text = " " + text + "\n"
    return text


def duration_text(draw):
    def part(letter, chance, most=4):
        return "".join(draw.choice("0123456789") for _ in range(draw.randint(1, most))) + letter if draw.random() < chance else ""
    text = draw.choice(["", "", "-"]) + "P" + part("Y", 0.4) + part("M", 0.4) + part("D", 0.5)
    times = part("H", 0.5) + part("M", 0.5)
    if draw.random() < 0.6:
        times += part(draw.choice(["S", ".5S", ".1234567S", ".0S", ".S"]), 1, 13)
    return damaged(draw, text + ("T" if times or draw.random() < 0.1 else "") + times)


def cases():
    draw = random.Random(12)
    for _ in range(220):
        text = damaged(draw, date_text(draw) + zone_text(draw))
        yield ["day_of", text, day_of(text)]
    for _ in range(260):
        text = moment_text(draw)
        yield ["day_of", text, day_of(text)]
        yield ["seconds_of", text, seconds_of(text)]
    lowest, highest = 1 - EPOCH, date.max.toordinal() - EPOCH
    near = [lowest - 1, lowest, lowest + 1, highest - 1, highest, highest + 1]
    for day in near + [draw.randint(lowest, highest) for _ in range(190)]:
        text = str(day) + draw.choice(["", "", "", ".499999", ".5", ".000001"])
        yield ["date_of", text, date_of(text)]
    for second in [day * 86400 for day in near] + [day * 86400 - 1 for day in near] + [draw.randint(lowest * 86400, highest * 86400 + 86399) for _ in range(190)]:
        text = str(second) + draw.choice(["", "", "", ".499999", ".5", ".9"])
        yield ["moment_of", text, moment_of(text)]
    for _ in range(400):
        text = duration_text(draw)
        yield ["duration", text, duration(text)]
    draw = random.Random(22)
    for places in range(10):
        with d.having(places):
            made = list(scaled(draw))
        yield from made


def scaled(draw):
    """Some cases of each call that has numbers, which have as many decimals as they have now."""
    places = str(d.places)
    for _ in range(12):
        text = moment_text(draw)
        yield ["seconds_of", places, text, seconds_of(text)]
        text = duration_text(draw)
        yield ["duration", places, text, duration(text)]
        day = draw.randint(-800000, 3000000)
        text = str(day) + draw.choice(["", ".4", ".5", ".499999999"])
        yield ["date_of", places, text, date_of(text)]
        text = str(day * 86400 + draw.randint(0, 86399)) + draw.choice(["", ".4", ".5", ".499999999"])
        yield ["moment_of", places, text, moment_of(text)]
