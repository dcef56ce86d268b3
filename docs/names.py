#!/usr/bin/env python3
"""Tells which names that the documents put into backquotes stand nowhere in the crates: clauses, definitions, functions, types, crates; which modules
and files that stand behind the name of a crate are none of it, and definitions that stand before one; which links of the documents lead nowhere; and which constants of limits.rt have not
their number in LIMITS.md. Ends with 1 where there is one. A name is one word of letters, digits and underscores, or such words with hyphens between."""
import pathlib
import re
import sys

TOP = pathlib.Path(__file__).resolve().parent.parent
DOCS = [TOP / "README.md", *sorted((TOP / "docs").glob("*.md"))]
# what is no name of the code: parts of forms, lines and replies, commands, and names of the standards and of the kit
LIKE_CODE = re.compile(r"^[A-Z]\w*[a-z]\w*$|^\w+_\w+$|^\w+(?:-\w+)+$")
MODULES = re.compile(r"`(\w+_\w+)(?:::(\w+))?`:? ((?:[A-Z]\w+)(?:, [A-Z]\w+)*)")
FILES = re.compile(r"`(\w+_\w+)(?:::(\w+))?` (\w+\.rt(?:, \w+\.rt)*)")
DEFINED = re.compile(r"((?:`\w+`(?:, )?)+): `(\w+_\w+)` ((?:[A-Z]\w+)(?:, [A-Z]\w+)*)((?:; (?:`\w+`(?:, )?)+: [A-Z]\w+)*)")
BEHIND = re.compile(r"; ((?:`\w+`(?:, )?)+): ([A-Z]\w+)")
LINK = re.compile(r"\]\(([^)#\s]*)(?:#([^)\s]*))?\)")
LIMIT = re.compile(r"^pub const (\w+): \w+ = ([\d_]+);$", re.MULTILINE)
CHECKED = {"EMBEDDING.md", "MACHINE.md", "THEOREM.md", "REFUSALS.md", "DEFINITIONS.md", "CRATES.md", "LIMITS.md", "CONTRIBUTING.md", "CRASHES.md"}


def words_of_code():
    """Every word of the sources, specs and proofs, and the names of crates and files."""
    found = set()
    for path in (TOP / "crates").rglob("*"):
        if "out" in path.parts or path.suffix not in (".rt", ".antt"):
            continue
        found.update(re.findall(r"\w+(?:-\w+)*", path.read_text(encoding="utf-8")))
        found.add(path.stem)
    found.update(path.name for path in (TOP / "crates").iterdir())
    found.update(path.stem for folder in ("crates", "bench/edits") for path in (TOP / folder).rglob("*") if "must-fail" in path.parts or folder != "crates")
    return found


def places(line):
    """The files that a line names behind the names of crates, or of modules of crates."""
    for crate, part, modules in MODULES.findall(line):
        word = "".join(it.capitalize() for it in part.split("_"))
        folders = [f"specs/{word}", f"proofs/{word}Lemmas"] if part else ["specs", "proofs"]
        if (TOP / "crates" / crate).exists():
            for module in modules.split(", "):
                yield f"{crate} {module}", [TOP / "crates" / crate / folder / f"{module}.antt" for folder in folders]
    for crate, part, files in FILES.findall(line):
        if (TOP / "crates" / crate).exists():
            for file in files.split(", "):
                yield f"{crate} {file}", [TOP / "crates" / crate / "src" / part / file]


def misplaced(line):
    """The definitions that a line names before a crate and modules of it, as `a`, `b`: `xf_c` M, and that stand in none of these modules."""
    for names, crate, modules, more in DEFINED.findall(line):
        for words, among in [(names, modules), *BEHIND.findall(more)]:
            paths = [TOP / "crates" / crate / "specs" / f"{module}.antt" for module in among.split(", ")]
            text = "".join(path.read_text(encoding="utf-8") for path in paths if path.exists())
            for word in re.findall(r"\w+", words):
                if not re.search(rf"^(?:abbrev |unfoldable |record |data |pub )+{word}\b", text, re.MULTILINE):
                    yield f"{word} in {crate} {among}"


def anchors(path):
    """The links that the titles of a document are."""
    titles = re.findall(r"^#+ (.*)$", path.read_text(encoding="utf-8"), re.MULTILINE)
    return {re.sub(r"[^\w\- ]", "", title.lower()).replace(" ", "-") for title in titles}


def lost_links(doc):
    for number, line in enumerate(doc.read_text(encoding="utf-8").split("\n"), 1):
        for file, anchor in LINK.findall(line):
            if "://" in file:
                continue
            path = doc.parent / file if file else doc
            if not path.exists() or anchor and anchor not in anchors(path):
                yield f"{doc.relative_to(TOP)}:{number}: no link {file}#{anchor}"


def limits_without_number():
    """The constants of limits.rt, each of which a row of LIMITS.md has, by its name in lower case, with its number."""
    rows = (TOP / "docs" / "LIMITS.md").read_text(encoding="utf-8").split("\n")
    for name, number in LIMIT.findall((TOP / "crates" / "xf_base" / "src" / "limits.rt").read_text(encoding="utf-8")):
        written = f"{int(number):,}"
        if not any(f"`{name.lower()}`" in row and written in row for row in rows):
            yield f"docs/LIMITS.md: no row has {name} with {written}"


def main():
    known = words_of_code()
    missing = list(limits_without_number())
    for doc in DOCS:
        missing.extend(lost_links(doc))
        if doc.name not in CHECKED:
            continue
        for number, line in enumerate(doc.read_text(encoding="utf-8").split("\n"), 1):
            for name in re.findall(r"`([^`]+)`(?! of the kit)", line):
                if LIKE_CODE.match(name) and name not in known and not name.endswith("_") and not name.startswith(("xforms-", "rattle-")):
                    missing.append(f"{doc.relative_to(TOP)}:{number}: {name}")
            missing.extend(f"{doc.relative_to(TOP)}:{number}: {name}" for name in misplaced(line))
            missing.extend(f"{doc.relative_to(TOP)}:{number}: {name}" for name, paths in places(line) if not any(path.exists() for path in paths))
    print("\n".join(missing) or "every name stands in the crates, and every link leads somewhere")
    return 1 if missing else 0


if __name__ == "__main__":
    sys.exit(main())
