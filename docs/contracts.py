#!/usr/bin/env python3
"""Prints contracts from the code: of a crate each module of its definitions with its first words, then each public type and call, with what its `///` says
and its clauses. Only what a caller can name is printed; `--all` prints private functions too.

    docs/contracts.py CRATE..           the whole crate, as docs/contracts.py xf_valid
    docs/contracts.py CRATE::MODULE..   one module of it, as docs/contracts.py xf_law_recalculation::marks
    docs/contracts.py NAME..            each call, type and definition of this name, wherever it stands, as docs/contracts.py revalidate

Ends with 1 where a word names nothing."""
import pathlib
import re
import sys

CRATES = pathlib.Path(__file__).resolve().parent.parent / "crates"
HEAD = re.compile(r"^(\s*)(pub(?:\(crate\))? )?(?:const )?fn (\w+)")
TYPE = re.compile(r"^pub (?:struct|enum|trait|type|const) (\w+)")
BLOCK = re.compile(r"^(?:impl|pub trait|trait)\b.*\{$")
DEFINED = re.compile(r"^(?:abbrev |unfoldable |record |data |pub )*pub (?:abbrev |unfoldable |record |data )*([\w-]+)")
CLAUSE = re.compile(r"^\s*(requires|ensures)\b ?")


class Item:
    """One call or type: where it stands, its name, what its comment says, its signature and its clauses."""

    def __init__(self, path, block, name, comment, is_public):
        self.path, self.block, self.name, self.comment, self.is_public = path, block, name, comment, is_public
        self.signature, self.clauses = [], []

    def show(self):
        within = f"{self.block}: " if self.block else ""
        print(f"  {within}{' '.join(self.signature)}")
        for line in self.comment:
            print(f"      {line}")
        for clause in self.clauses:
            print("    " + clause.replace("\n", "\n        "))
        print()


def words_of(lines, start, item):
    """Reads the signature and the clauses of the function whose head stands at `start`, up to its body."""
    for line in lines[start:]:
        text = line.strip()
        if text in ("{", "{}"):
            return
        if CLAUSE.match(line):
            item.clauses.append(text)
        elif item.clauses:
            item.clauses[-1] += "\n" + text
        else:
            item.signature.append(text)
        whole = "\n".join(item.signature + item.clauses)
        is_balanced = all(whole.count(a) == whole.count(b) for a, b in ("()", "[]"))
        if is_balanced and (text.endswith(";") or not item.clauses and re.search(r"\{( .*\}|\})?$", text) or text.endswith("} {") or text.endswith("}}")):
            break
    last = item.clauses or item.signature
    last[-1] = re.sub(r"( \{.*)$|;$", "", last[-1]) if not item.clauses else re.sub(r"( \{)$|;$", "", last[-1])


def items_of(path):
    """The types and functions of a source file, in their order."""
    lines = path.read_text(encoding="utf-8").split("\n")
    block, comment = "", []
    for at, line in enumerate(lines):
        text = line.strip()
        if text.startswith("///"):
            comment.append(text[3:].strip())
            continue
        head, kind = HEAD.match(line), TYPE.match(line)
        if BLOCK.match(line):
            block = line[:-1].strip().removeprefix("pub ")
        if head:
            owner = block if head[1] else ""
            is_public = head[2] == "pub " or bool(owner) and (owner.startswith("trait") or " for " in owner)
            item = Item(path, owner, head[3], comment, is_public)
            words_of(lines, at, item)
            yield item
        elif kind:
            item = Item(path, "", kind[1], comment, True)
            item.signature = [re.sub(r"\s*[{;]*$", "", text)]
            yield item
        if line == "}":
            block = ""
        if not text.startswith("#["):
            comment = []


def first_words(path):
    """What the comment at the top of a module of definitions says."""
    said = []
    for line in path.read_text(encoding="utf-8").split("\n"):
        if not line.startswith("--"):
            break
        said.append(line.strip("- "))
    return " ".join(said)


def definitions(path):
    """The definitions of a module, each with the comment above it and the lines that say it."""
    lines = path.read_text(encoding="utf-8").split("\n")
    comment = []
    for at, line in enumerate(lines):
        found = DEFINED.match(line)
        if found:
            body = [line]
            for more in lines[at + 1:]:
                if not more.strip() or more.startswith(("--", "abbrev pub", "pub ", "unfoldable pub")):
                    break
                body.append(more)
            yield found[1], comment, body
        comment = comment + [line] if line.startswith("--") else []


def crates():
    return sorted(path for path in CRATES.iterdir() if (path / "src").is_dir())


def show_crate(crate, module, every):
    folder = "".join(word.capitalize() for word in module.split("_"))
    modules = [path for path in sorted((crate / "specs" / folder).rglob("*.antt")) if path.stem != "Lib"]
    for path in modules:
        print(f"{path.relative_to(CRATES)}\n      {first_words(path)}")
    print()
    found = bool(modules)
    for path in sorted((crate / "src").rglob("*.rt")):
        inside = path.relative_to(crate / "src")
        if module and inside.parts[0] not in (module, f"{module}.rt"):
            continue
        shown = [item for item in items_of(path) if item.is_public or every]
        if shown:
            print(path.relative_to(CRATES))
        for item in shown:
            item.show()
            found = True
    return found


def show_name(name, every):
    found = False
    for crate in crates():
        for path in sorted((crate / "src").rglob("*.rt")):
            for item in items_of(path):
                if item.name == name and (item.is_public or every):
                    print(path.relative_to(CRATES))
                    item.show()
                    found = True
        for path in sorted((crate / "specs").rglob("*.antt")):
            for defined, comment, body in definitions(path):
                if defined == name:
                    print(path.relative_to(CRATES), *comment, *body, sep="\n  ")
                    print()
                    found = True
    return found


def main():
    every = "--all" in sys.argv
    words = [word for word in sys.argv[1:] if word != "--all"]
    if not words:
        print(__doc__)
    missing = []
    for word in words:
        crate, _, module = word.partition("::")
        is_crate = (CRATES / crate / "src").is_dir()
        if not (show_crate(CRATES / crate, module, every) if is_crate else show_name(word, every)):
            missing.append(word)
    for word in missing:
        print(f"{word}: nothing of this name is public", file=sys.stderr)
    return 1 if missing else 0


if __name__ == "__main__":
    try:
        sys.exit(main())
    except BrokenPipeError:
        sys.exit(0)
