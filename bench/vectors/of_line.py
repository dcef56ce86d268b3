"""Cases of xf_line: lines of the event stream as Python's json writes them, and the words of what they ask for."""

import json
import random

TEXTS = ["", "a", "q", "x y", "\u00e9", "\n", "\"", "\U0001f600", "0", "set", "\\"]
SIZES = [0, 1, 2, 3, 10, 2**32, 2**53 + 1, 2**63, 2**64 - 1]
OTHERS = [-1, 2**64, 1.0, 1.5, None, True, [], {}, "1", -0.0]
NOT_EVENT = "not an event"


def event_of(draw):
    """An event as a list, and its words."""
    text, other = draw.choice(TEXTS), draw.choice(TEXTS)
    rows = [draw.choice(SIZES) for _ in range(draw.choice([0, 0, 1, 2, 5]))]
    size = draw.choice(SIZES)
    name = draw.choice(["ping", "DOMActivate", "\u00e9", "n" * 255, "x y"])
    return draw.choice([
        (["set", text, rows, other], f"set {text} {rows} {other}"), (["activate", text, rows], f"activate {text} {rows}"),
        (["index", text, size], f"index {text} {size}"), (["send", text], f"send {text}"),
        (["dispatch", name, text], f"dispatch {name} {text}"), (["reset", text], f"reset {text}"), (["show"], "show")])


def spoilt(draw, event):
    """The event with one part of another kind, one too few or one too many."""
    made = list(event)
    how = draw.choice(["less", "more", "other", "rows", "word"])
    if how == "less" and len(made) > 1:
        return made[:-1]
    if how == "other" and len(made) > 1:
        at = draw.randrange(1, len(made))
        made[at] = draw.choice([other for other in OTHERS if not (isinstance(made[at], list) and other == []) and not isinstance(other, str)])
        return made
    if how == "rows" and len(made) > 2 and isinstance(made[2], list):
        made[2] = made[2] + [draw.choice(OTHERS)]
        return made
    if how == "word":
        return [draw.choice(["", "Show", "undo", "shows", "SET", 1, None]), *made[1:]]
    return made + [draw.choice(["x", 1, None, []])]


def line_of(draw, value):
    return json.dumps(value, ensure_ascii=draw.random() < 0.5, separators=draw.choice([(",", ":"), (", ", ": "), (" , ", " :\t")]))


def cases():
    draw = random.Random(16)
    for _ in range(170):
        event, words = event_of(draw)
        line = line_of(draw, event)
        yield ["read_line", line, words]
        if draw.random() < 0.5:
            yield ["read_line", line_of(draw, spoilt(draw, event)), NOT_EVENT]
        if draw.random() < 0.2:
            yield ["read_line", line[:draw.randrange(len(line))], "not JSON"]
        if draw.random() < 0.15:
            at = draw.randrange(len(line.encode()))
            yield ["read_line_bytes", (line.encode()[:at] + b"\xfe" + line.encode()[at:]).hex(), "not JSON"]
    for value in [None, True, 0, 1.5, "show", {}, {"show": []}, [], [[]], [["show"]], ["dispatch", "n" * 256, "x"], ["dispatch", "\u00e9" * 128, "x"]]:
        yield ["read_line", line_of(draw, value), NOT_EVENT]
    yield ["read_line", json.dumps(["dispatch", "\u00e9" * 127, "x"]), "dispatch " + "\u00e9" * 127 + " x"]
