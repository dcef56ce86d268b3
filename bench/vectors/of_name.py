"""Cases of xf_name: name parts by Python's identifiers, and the namespaces and prefixes of forms by a plain walk."""

import json
import random

XML = "http://www.w3.org/XML/1998/namespace"
URIS = ["u", "v", "w", "urn:x", XML]
PREFIXES = ["p", "q", "r", "_s", "\u00e9"]
LETTERS = "ab_-.:1 \u00e9\u4e00\u0301\u00b7\U0001f600\u0660"


def is_part(text):
    return text != "" and len(text.encode()) <= 255 and (text[0] == "_" or text[0].isidentifier()) and all(
        c in "-." or ("a" + c).isidentifier() for c in text)


def form_of(draw):
    """A sound form as a tree: each prefix has one namespace, and none is missing."""
    bound = {prefix: draw.choice(URIS) for prefix in draw.sample(PREFIXES, draw.randint(0, 4))}

    def element(depth):
        pairs = {"xmlns:" + prefix: bound[prefix] for prefix in bound if draw.random() < 0.4}
        if draw.random() < 0.3:
            pairs["xmlns"] = draw.choice([*URIS[:4], ""])
        if draw.random() < 0.4:
            pairs[draw.choice(["k", "xml:lang"])] = "1"
        made = [draw.choice("abc")] + ([pairs] if pairs else [])
        return made + [element(depth - 1) for _ in range(draw.randint(0, 3) if depth else 0)]

    return element(2)


def walk(element):
    """The elements in document order, each with its attributes."""
    pairs = element[1] if len(element) > 1 and isinstance(element[1], dict) else {}
    yield pairs
    for child in element[1:]:
        if isinstance(child, list):
            yield from walk(child)


def declared(form):
    """The prefixes with their namespaces and the namespaces, both in the order of their first declarations."""
    prefixes, spaces = {}, []
    for pairs in walk(form):
        for name in sorted(pairs, key=lambda name: name.encode()):
            if name != "xmlns" and not name.startswith("xmlns:"):
                continue
            if pairs[name] not in ["", XML, *spaces]:
                spaces.append(pairs[name])
            if name.startswith("xmlns:"):
                prefixes.setdefault(name[6:], pairs[name])
    return prefixes, spaces


def place_of(uri, spaces):
    return 65535 if uri == XML else spaces.index(uri) + 1


def questions(form, text):
    prefixes, spaces = declared(form)
    for uri in [*URIS, "", "none"]:
        known = uri == XML or uri in spaces
        yield ["space_of", text, uri, str(place_of(uri, spaces)) if known else "none"]
    for number in [0, 1, 2, 3, 4, 5, 65535]:
        listed = dict(enumerate(spaces, 1)) | {65535: XML}
        yield ["space_text", text, str(number), listed.get(number, "none")]
        known = dict(enumerate(prefixes, 1)) | {65535: "xml"}
        yield ["prefix_text", text, str(number), known.get(number, "none")]
    for prefix in [*PREFIXES, "xml"]:
        uri = XML if prefix == "xml" else prefixes.get(prefix)
        place = 65535 if prefix == "xml" else list(prefixes).index(prefix) + 1 if uri else 0
        yield ["resolve", text, prefix + ":k-1", "3", f"{place_of(uri, spaces)} {place} k-1" if uri else "PrefixUnknown"]
    for written, told in [("k", "3 0 k"), ("", "BadName"), ("1k", "BadName"), ("a:b:c", "BadName"), (":k", "BadName"), ("xml:", "BadName")]:
        yield ["resolve", text, written, "3", told]


FAULTS = {"BadName": [["1"], ["a b"], [""], ["a:"], [":a"], ["a:b:c"], ["a", {"1": ""}], ["a", {"xmlns:": "u"}], ["a", {"xmlns:1": "u"}]],
          "PrefixUnknown": [["z:a"], ["a", {"z:k": ""}]],
          "PrefixRebound": [["a", {"xmlns:p": ""}], ["a", {"xmlns:p": "other"}], ["a", {"xmlns:xml": "u"}], ["a", {"xmlns:xml": ""}]]}


def cases():
    draw = random.Random(19)
    for _ in range(150):
        text = "".join(draw.choice(LETTERS) for _ in range(draw.randint(0, 5)))
        yield ["is_part", text, "yes" if is_part(text) else "no"]
    for count in [254, 255, 256]:
        yield ["is_part", ["b", str(count)], "yes" if count < 256 else "no"]
    for _ in range(24):
        form = form_of(draw)
        text = json.dumps(form, ensure_ascii=False, separators=(",", ":"))
        yield ["survey", text, "none"]
        yield ["collect", text, "sound"]
        yield from questions(form, text)
    for fault, elements in FAULTS.items():
        for element in elements:
            for before in [0, 1, 3]:
                form = ["f", {"xmlns:p": "u"}] + [["a"]] * before + [element, ["b"]]
                text = json.dumps(form, ensure_ascii=False, separators=(",", ":"))
                yield ["survey", text, f"{before + 1} {fault}"]
                yield ["collect", text, fault]
