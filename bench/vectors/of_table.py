"""Cases of xf_table: each name of a table with its place, its least and most arguments and its marks, and names that no table has."""

import itertools

FUNCTIONS = """avg 1 1 n, boolean 1 1, boolean-from-string 1 1, ceiling 1 1, choose 3 3 g, compare 2 2, concat 2 255, contains 2 2, count 1 1 n,
count-non-empty 1 1 n, current 0 0 g, days-from-date 1 1, days-to-date 1 1, event 1 1 g, false 0 0, floor 1 1, if 3 3, index 1 1,
instance 0 1 g, last 0 0, local-name 0 1 n, max 1 1 n, min 1 1 n, months 1 1, name 0 1 n, namespace-uri 0 1 n, normalize-space 0 1,
not 1 1, number 0 1, position 0 0, power 2 2, property 1 1, round 1 1, seconds 1 1, seconds-from-dateTime 1 1, seconds-to-dateTime 1 1,
starts-with 2 2, string 0 1, string-length 0 1, substring 2 3, substring-after 2 2, substring-before 2 2, sum 1 1 n, translate 3 3, true 0 0"""
EVENTS = {3: "DOMActivate xforms-rebuild xforms-recalculate xforms-revalidate xforms-refresh xforms-reset xforms-submit",
          0: """xforms-submit-done xforms-submit-error xforms-insert xforms-delete xforms-value-changed xforms-valid xforms-invalid
          xforms-readonly xforms-readwrite xforms-required xforms-optional xforms-enabled xforms-disabled xforms-select xforms-deselect
          xforms-model-construct xforms-model-construct-done xforms-ready"""}
TYPES = {7: "string normalizedString token",
         3: """boolean decimal integer nonPositiveInteger negativeInteger nonNegativeInteger positiveInteger long int short byte
         unsignedLong unsignedInt unsignedShort unsignedByte date time dateTime gYear gYearMonth gMonth gMonthDay gDay anyURI hexBinary
         NCName Name QName""",
         1: "duration", 2: "listItem listItems dayTimeDuration yearMonthDuration"}
ELEMENTS = {0: "model instance bind submission switch item itemset choices label value help hint alert extension", 1: "group case repeat",
            2: "input secret textarea output select select1 trigger submit",
            4: """action setvalue insert delete setindex toggle setfocus dispatch send load message reset rebuild recalculate revalidate
            refresh"""}


def by_marks(groups):
    return {name: (0, 0, marks) for marks, names in groups.items() for name in names.split()}


def functions():
    found = {}
    for row in FUNCTIONS.split(","):
        name, least, most, *marks = row.split()
        found[name] = (int(least), int(most), {"n": 1, "g": 2}[marks[0]] if marks else 0)
    return found


def cases():
    tables = {"functions": functions(), "events": by_marks(EVENTS), "types": by_marks(TYPES), "elements": by_marks(ELEMENTS)}
    for table, rows in tables.items():
        for place, name in enumerate(sorted(rows)):
            yield ["find", table, name, f"{place} " + " ".join(map(str, rows[name]))]
            for other in [name + "x", name[:-1], name.upper()]:
                if other not in rows:
                    yield ["find", table, other, "none"]
    names = ["a", "aa", "ab", "abc", "b", "c", "d"]
    for count in range(4):
        for chosen in itertools.product(names[:5], repeat=count):
            rises = all(x < y for x, y in zip(chosen, chosen[1:]))
            if count < 3 or rises:
                yield ["is_ordered", " ".join(chosen), "yes" if rises else "no"]
            if rises:
                for name in names:
                    yield ["find_among", " ".join(chosen), name, str(chosen.index(name)) if name in chosen else "none"]
