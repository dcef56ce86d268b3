"""Cases of xf_schema: types by restriction with facets (XML Schema, part 2, sections 4.1 and 4.3), by lists, regular expressions and decimal."""

import random
import re
from decimal import Decimal, getcontext

import of_types

getcontext().prec = 400
STRINGS = ["string", "normalizedString", "token"]
NUMBERS = ["decimal", *of_types.INTEGERS]
SPACES = " \t\n\r"


def meets_built_in(space, local, text):
    """A text that its white space rule has been applied to."""
    bare = text.strip(SPACES)
    if space == "xf" and not bare:
        return True
    if local in [*STRINGS, "anyURI", "listItems"]:
        return True
    if local in of_types.INTEGERS:
        return of_types.is_integer(bare, *of_types.INTEGERS[local])
    return of_types.MEETS[local](bare)


def decimal_of(text):
    bare = text.strip(SPACES)
    return Decimal(bare) if re.match(r"[+-]?([0-9]+(\.[0-9]*)?|\.[0-9]+)\Z", bare) else None


def digits_of(value):
    """Whole digits and fraction digits, without needless zeros."""
    whole, _, fraction = format(abs(value), "f").partition(".")
    return len(whole.lstrip("0")), len(fraction.rstrip("0"))


def is_count(text):
    return re.match(r"[0-9]{1,5}\Z", text) is not None


class Types:
    def __init__(self, types):
        self.types = types

    def spelt(self):
        return ";".join(",".join([f"t:{n}", base, *[f"{k}={v}" for k, v in facets]]) for n, base, facets in self.types)

    def find(self, name):
        return next((t for t in self.types if f"t:{t[0]}" == name), None)

    def end(self, name):
        """The restrictions on the way from a base, and the built-in type, or none."""
        way = []
        while True:
            space, _, local = name.partition(":")
            if space in ("xs", "xf") and (local in of_types.BOTH or local in of_types.ONLY[space]):
                return way, (space, local)
            found = self.find(name)
            if found is None or found in way:
                return way, None
            way.append(found)
            name = found[1]

    def is_endless(self, name):
        seen = []
        while (found := self.find(name)) is not None:
            if found in seen:
                return True
            seen.append(found)
            name = found[1]
        return False

    def bad(self):
        place = 0
        names = set()
        for name, base, facets in self.types:
            place += 1
            if name in names:
                return f"{place} t:{name}"
            names.add(name)
            place += 1
            space, _, local = base.partition(":")
            is_type = self.find(base) is not None or (space in ("xs", "xf") and (local in of_types.BOTH or local in of_types.ONLY[space]))
            if not is_type or self.is_endless(base):
                return f"{place} {base}"
            end = self.end(base)[1]
            for kind, value in facets:
                place += 1
                if self.is_bad(kind, value, end and end[1]):
                    return f"{place} {kind}={value}"
        return "none"

    @staticmethod
    def is_bad(kind, value, end):
        if kind in ("length", "minLength", "maxLength"):
            return not is_count(value) or (end is not None and end not in [*STRINGS, "anyURI", "hexBinary"])
        if kind in ("totalDigits", "fractionDigits"):
            return not is_count(value) or (kind == "totalDigits" and int(value) == 0) or (end is not None and end not in NUMBERS)
        if kind in ("minInclusive", "maxInclusive", "minExclusive", "maxExclusive"):
            return decimal_of(value) is None or (end is not None and end not in NUMBERS)
        if kind == "whiteSpace":
            return value not in ("preserve", "replace", "collapse") or (end is not None and end not in STRINGS)
        return False

    def meets(self, name, text):
        way, (space, local) = self.end(f"t:{name}")
        rule = {"string": "preserve", "normalizedString": "replace"}.get(local, "collapse")
        for _, _, facets in reversed(way):
            for kind, value in reversed(facets):
                rule = value if kind == "whiteSpace" else rule
        if rule != "preserve":
            text = re.sub("[\t\n\r]", " ", text)
        if rule == "collapse":
            text = re.sub(" +", " ", text).strip(" ")
        if space == "xf" and not text:
            return True
        return meets_built_in(space, local, text) and all(self.meets_facets(t[2], local, text) for t in way)

    @staticmethod
    def meets_facets(facets, local, text):
        is_number = local in NUMBERS
        number = decimal_of(text) if is_number else None
        size = len(text) // 2 if local == "hexBinary" else len(text)
        choices = [v for k, v in facets if k == "enumeration"]
        if choices and not any((decimal_of(v) is not None and decimal_of(v) == number) if is_number else v == text for v in choices):
            return False
        for kind, value in facets:
            if kind == "length" and size != int(value) or kind == "minLength" and size < int(value) or kind == "maxLength" and size > int(value):
                return False
            if kind.endswith("clusive"):
                bound = decimal_of(value)
                met = {"minInclusive": number >= bound, "maxInclusive": number <= bound, "minExclusive": number > bound, "maxExclusive": number < bound}
                if not met[kind]:
                    return False
            if kind == "totalDigits" and sum(digits_of(number)) > int(value) or kind == "fractionDigits" and digits_of(number)[1] > int(value):
                return False
        return True


def numeral(rng):
    whole = rng.choice(["", "0", "00", "1", "9", "10", "010", "12", "100", "99999999999999999999", "5"])
    fraction = rng.choice(["", "", ".", ".0", ".5", ".50", ".25", ".125", ".05", ".000000000000000000001"])
    text = rng.choice(["", "", "-", "+"]) + whole + fraction
    return text if decimal_of(text) is not None else text + "1"


def facets_for(rng, local):
    facets = []
    for _ in range(rng.randrange(3)):
        if local in NUMBERS:
            kind = rng.choice(["minInclusive", "maxInclusive", "minExclusive", "maxExclusive", "totalDigits", "fractionDigits", "enumeration"])
            value = str(rng.randrange(1, 5)) if kind.endswith("Digits") else numeral(rng)
        elif local in STRINGS:
            kind = rng.choice(["length", "minLength", "maxLength", "enumeration", "whiteSpace"])
            value = rng.choice(["preserve", "replace", "collapse"]) if kind == "whiteSpace" else (
                rng.choice(["a", "ab", "a b", " a", "é"]) if kind == "enumeration" else str(rng.randrange(5)))
        elif local in ("anyURI", "hexBinary"):
            kind = rng.choice(["length", "minLength", "maxLength", "enumeration"])
            value = rng.choice(["a", "0a", "0A", "ab"]) if kind == "enumeration" else str(rng.randrange(4))
        else:
            kind, value = "enumeration", rng.choice(["true", "2004-01-01", "a"])
        facets.append((kind, value))
    return facets


def text_for(rng, local):
    if local in NUMBERS:
        text = numeral(rng) if rng.randrange(8) else rng.choice(["", "x", "1 2", "1e2"])
    elif local in ("hexBinary",):
        text = rng.choice(["", "0a", "0A", "0a1b", "0a1b2c", "0", "ab", "x"])
    elif local in (*STRINGS, "anyURI"):
        text = "".join(rng.choice(["a", "b", "é", "𝄞", " ", "  ", "\t", "\n", "\r"]) for _ in range(rng.randrange(5)))
    else:
        text = rng.choice(["", "true", "2004-01-01", "a", "1"])
    return rng.choice(["", "", " ", "\t\n"]) + text + rng.choice(["", "", " "])


def chain(rng):
    space = rng.choice(["xs", "xf"])
    local = rng.choice([*STRINGS, *STRINGS, "anyURI", "hexBinary", "decimal", "decimal", "integer", "byte", "boolean", "date", "NCName"])
    base, types = f"{space}:{local}", []
    for name in "abc"[: rng.randrange(1, 4)]:
        types.append((name, base, facets_for(rng, local)))
        base = f"t:{name}"
    rng.shuffle(types)
    return Types(types), local


def cases():
    rng = random.Random(20)
    made = 0
    while made < 2000:
        types, local = chain(rng)
        assert types.bad() == "none", types.spelt()
        for _ in range(4):
            name, text = rng.choice(types.types)[0], text_for(rng, local)
            yield ["meets", types.spelt(), f"t:{name}", text, "yes" if types.meets(name, text) else "no"]
            made += 1
    for _ in range(400):
        types, local = chain(rng)
        some = list(types.types)
        at = rng.randrange(len(some))
        name, base, facets = some[at]
        way = rng.randrange(6)
        if way == 0:
            base = rng.choice(["t:z", "xs:listItem", "xs:float", "y:string", "xs:dayTimeDuration"])
        elif way == 1:
            base = f"t:{rng.choice(some)[0]}"
        elif way == 2:
            name = rng.choice(some)[0]
        else:
            kind = rng.choice(["length", "maxLength", "totalDigits", "fractionDigits", "minInclusive", "maxExclusive", "whiteSpace", "enumeration"])
            facets = [*facets, (kind, rng.choice(["0", "1", "5", "00005", "000005", "-1", "", "x", "1.5", "+3", "collapse", "none"]))]
        some[at] = (name, base, facets)
        made = Types(some)
        yield ["bad", made.spelt(), made.bad()]
