"""Cases of xf_json: trees as Python's json reads and prints them."""

import json
import random

TEXTS = ["", "a", "x y", "\u00e9", "\n\t", "\"", "\\", "\u0001", "\U0001f600", "</a>", "\u007f", "\b\f\r", "\u2028", "1", "null"]
NAMES = ["a", "b", "p:x", "k", "\u00e9", "A", "aa", "xmlns", "xmlns:p", "_", "z-1"]


def tree_of(draw, depth):
    element = [draw.choice(NAMES)]
    if draw.random() < 0.5:
        element.append({draw.choice(NAMES): draw.choice(TEXTS) for _ in range(draw.randint(0, 4))})
    for _ in range(draw.randint(0, 4)):
        element.append(tree_of(draw, depth - 1) if depth and draw.random() < 0.4 else draw.choice(TEXTS))
    return element


def plain(element):
    """The tree without empty texts and empty objects, with texts that meet joined and attributes in order."""
    made = element[:1]
    rest = element[1:]
    if rest and isinstance(rest[0], dict):
        pairs = sorted(rest.pop(0).items(), key=lambda pair: pair[0].encode())
        made += [dict(pairs)] if pairs else []
    before = None
    for part in rest:
        if isinstance(part, str):
            before = (before or "") + part
            continue
        made += [before] if before else []
        before = None
        made.append(plain(part))
    return made + ([before] if before else [])


def text_of(draw, element):
    return json.dumps(element, ensure_ascii=draw.random() < 0.4, separators=draw.choice([(",", ":"), (", ", ": "), (" ,\n", " :\t")]))


def printed(element):
    return json.dumps(plain(element), ensure_ascii=False, separators=(",", ":"))


def spoilt(draw, element):
    """The tree with one part that no element has."""
    place = element
    while draw.random() < 0.5 and any(isinstance(part, list) for part in place):
        place = next(part for part in place if isinstance(part, list))
    what = draw.choice([1, 1.5, None, True, {}, []])
    place.insert(draw.randint(2, len(place)) if len(place) > 1 and isinstance(place[1], dict) else len(place), what)
    if what == {} and place.index(what) == 1:
        place.insert(1, "t")
    return element


def cases():
    draw = random.Random(15)
    for _ in range(140):
        element = tree_of(draw, 3)
        text = text_of(draw, element)
        yield ["print", text, printed(element)]
        if draw.random() < 0.25:
            yield ["print", text[:draw.randrange(len(text))], "NotJson"]
        if draw.random() < 0.15:
            yield ["print", text + draw.choice(["]", "1", ",", "[]", "x"]), "NotJson"]
        if draw.random() < 0.4:
            yield ["print", text_of(draw, spoilt(draw, element)), "NotElement"]
        if draw.random() < 0.2:
            bytes_ = text.encode() + b" \n"
            yield ["print_bytes", bytes_.hex(), printed(json.loads(text))]
            at = draw.randrange(len(text.encode()))
            yield ["print_bytes", (bytes_[:at] + b"\xff" + bytes_[at:]).hex(), "NotJson"]
    for text in ["null", "true", "1", "-0.5", "\"a\"", "{}", "{\"a\":[\"a\"]}", "[]", "[[]]", "[[\"a\"]]", "[null]", "[{}]", "[{\"a\":\"b\"},\"a\"]"]:
        yield ["print", text, "NotElement"]
    for text in ["", " ", "[", "['a']", "[\"a\",]", "[\"a\" \"b\"]", "[\"\\x\"]", "[\"\\ud800\"]", "[\"a\nb\"]", "[01]", "[+1]", "[.5]", "nul", "[\"a\"]//"]:
        yield ["print", text, "NotJson"]
    for count in [1, 2, 60, 126, 127]:
        deep = ["[\"a\",", str(count - 1), "[\"b\"]", "1", "]", str(count - 1)]
        yield ["print", deep, deep]
    for count in [128, 129, 500]:
        yield ["print", ["[\"a\",", str(count - 1), "[\"b\"]", "1", "]", str(count - 1)], "NotJson"]
    for _ in range(40):
        pairs = [(draw.choice(NAMES), draw.choice(TEXTS)) for _ in range(draw.randint(0, 5))]
        yield ["print_pairs", "e", *[part for pair in pairs for part in pair], printed(["e", dict(pairs)])]
