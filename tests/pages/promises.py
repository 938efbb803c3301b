"""Finds everything that docs/PROMISES.md names, so that the page cannot cite what was renamed or
deleted.

    python3 tests/pages/promises.py

What stands in backquotes is a name, and one of these, looked for in this order:

- A path, which has a slash or the ending of a file, below crates/ or below the repository. A file
  without its folder is the only one of that name in the crates' specs/; `specs/` and the like,
  alone, stand for that folder of every crate. A folder must-fail/ must hold edits.
- An edit, in a column about edits and behind the word "edit"; with a star, all that match.
- A crate; a definition or a law, in a crate's specs/ or proofs/, a record or a field of one; a
  function, a type or a constant, in a crate's src/; a word of the contracts' language: WORDS.

Where the page says in which file, crate or record a name is, it must be there: "`FILE`: `a`, `b`
and `c`" and "`a`, `b` and `c` in `FILE`" bind all these names; so do "`a`, `b` of `RECORD`" and
"`a` and `b` of `CRATE`", but "`a`, `b` of `CRATE`" the last alone; "of `X`, of `Y` and of `Z`"
means each. The head of a column may name the crate.
"""

import re
import sys
from collections import defaultdict
from fnmatch import fnmatchcase

from paths import ROOT

CRATES = ROOT / "crates"
PAGE = ROOT / "docs" / "PROMISES.md"
WORDS = {"requires"}
JOINS = (", ", " and ", ", and ")
OWNERS = (", of ", " and of ", ", and of ")

# What is public may stand inside of a module, indented.
DECLARED = re.compile(
    r"^(?: *(?:abbrev |unfoldable )?pub |(?:abbrev |unfoldable )?)(?:data |record )?"
    r"([^\s(){}:]+)(?: [({].*)? :\s",
    re.MULTILINE,
)
RECORD = re.compile(
    r"^( *)((?:pub )?record ([^\s(){}]+)[^\n]*\n)((?:\1 +[^\n]*\n)+)", re.MULTILINE
)
FIELD = re.compile(r"^ +(?:pub )?([^\s(){}]+) :\s", re.MULTILINE)
ITEM = re.compile(r"^(?:pub )?(?:extern \"C\" )?(?:fn|struct|enum|const) (\w+)", re.MULTILINE)
IMPL = re.compile(r"^impl(?:<[^>]*>)? (\w+)[^\n]*\{\n(.*?)^\}", re.MULTILINE | re.DOTALL)
METHOD = re.compile(r"^    (?:pub )?fn (\w+)", re.MULTILINE)


def crate_of(file):
    return file.relative_to(CRATES).parts[0]


class Repository:
    """Where each name is declared: the files of definitions and of source items, the fields of each
    record, the crates of each edit."""

    def __init__(self):
        lines = (ROOT / "crates.txt").read_text(encoding="utf-8").splitlines()
        self.crates = {line.split(":")[0].split()[0] for line in lines if line and not line.startswith("#")}
        self.definitions, self.items = defaultdict(set), defaultdict(set)
        self.fields, self.edits = defaultdict(set), defaultdict(set)
        for file in CRATES.glob("*/*/**/*.antt"):
            text = file.read_text(encoding="utf-8")
            for _, _, record, body in RECORD.findall(text):
                self.fields[record] |= set(FIELD.findall(body))
            for name in DECLARED.findall(RECORD.sub(r"\1\2", text)):
                self.definitions[name].add(file)
        for file in CRATES.glob("*/src/**/*.rt"):
            text = file.read_text(encoding="utf-8")
            names = ITEM.findall(text)
            for kind, body in IMPL.findall(text):
                names += [f"{kind}::{method}" for method in METHOD.findall(body)]
            for name in names:
                self.items[name].add(file)
        for file in CRATES.glob("*/must-fail/*.edit"):
            self.edits[file.stem].add(crate_of(file))

    def path(self, name):
        """The file or folder of that name, or None."""
        if name.endswith("must-fail/"):
            return next((CRATES / name).glob("*.edit"), next(CRATES.glob(f"*/{name}"), None))
        if "/" not in name:
            found = list(CRATES.glob(f"*/specs/{name}"))
            return found[0] if len(found) == 1 else None
        places = [CRATES / name, ROOT / name, *CRATES.glob(f"*/{name}")]
        return next((place for place in places if place.exists()), None)

    def has_edit(self, name, crate):
        """With a star, one that matches; in the crate, where one is said."""
        found = [crates for edit, crates in self.edits.items() if fnmatchcase(edit, name)]
        return any(crate is None or crate in crates for crates in found)

    def has_in_file(self, name, file):
        used = file.suffix == ".rt" and re.search(rf"\b{re.escape(name)}\b", file.read_text())
        return bool(used) or file in self.definitions[name] | self.items[name]

    def has(self, name, crate=None):
        """In any crate or in the one said."""
        files = self.definitions[name] | self.items[name]
        if any(crate in (None, crate_of(file)) for file in files):
            return True
        fields = set().union(*self.fields.values())
        return name in WORDS or crate is None and name in self.crates | fields


def is_path(name):
    return "/" in name or re.search(r"\.(antt|rt|py|c|h|md)$", name) is not None


class Cell:
    """A piece of text with names in it: what each name is, or that it is not found."""

    def __init__(self, repository, text, edits=False, crate=None):
        self.repository, self.edits, self.crate = repository, edits, crate
        parts = re.split(r"`([^`]+)`", text)
        self.gaps, self.names = parts[::2], parts[1::2]
        # the files, crates and records in which a name must be
        self.within, self.owners = defaultdict(list), set()
        for at in range(len(self.names)):
            self.bind(at)

    def joined_before(self, at, joins=JOINS):
        """The names of the list that ends just before this one."""
        first = at - 1
        while first > 0 and self.gaps[first] in joins and not is_path(self.names[first - 1]):
            first -= 1
        return range(max(0, first), at)

    def bind(self, at):
        name, gap = self.names[at], self.gaps[at]
        if is_path(name) and self.gaps[at + 1].startswith(": "):
            for last in range(at + 1, len(self.names)):
                if self.gaps[last] not in (": ", *JOINS) or is_path(self.names[last]):
                    break
                self.within[last].append(name)
        if at and is_path(name) and gap == " in ":
            for bound in self.joined_before(at):
                self.within[bound].append(name)
        if at and gap == " of ":
            self.bind_owners(at)

    def bind_owners(self, at):
        record = self.names[at] in self.repository.fields
        bound = self.joined_before(at, JOINS if record else (" and ",))
        joins = OWNERS + JOINS if record else OWNERS
        while True:
            self.owners.add(at)
            for one in bound:
                self.within[one].append(self.names[at])
            at += 1
            if at >= len(self.names) or self.gaps[at] not in joins:
                break
            if record and self.names[at] not in self.repository.fields:
                break

    def is_edit(self, at):
        if at in self.owners:
            return False
        return self.edits or re.search(r"\bedits? $", self.gaps[at]) is not None

    def found_within(self, at, place):
        name, repository = self.names[at], self.repository
        if is_path(place):
            file = repository.path(place)
            return file is not None and repository.has_in_file(name, file)
        if place in repository.fields:
            return name in repository.fields[place]
        has = repository.has_edit if self.is_edit(at) else repository.has
        return place in repository.crates and has(name, place)

    def found(self, at):
        name, repository = self.names[at], self.repository
        if is_path(name):
            return repository.path(name) is not None
        if self.within[at]:
            return all(self.found_within(at, place) for place in self.within[at])
        return repository.has_edit(name, self.crate) if self.is_edit(at) else repository.has(name)

    def missing(self):
        for at, name in enumerate(self.names):
            if not self.found(at):
                place = ", ".join(self.within[at]) or (self.crate if self.is_edit(at) else "")
                yield f"`{name}`" + (f" in {place}" if place else "")


def cells(repository, text):
    """Each cell of a table, with what its column's head says, and each other line as one."""
    heads = None
    for number, line in enumerate(text.splitlines(), 1):
        if not line.startswith("|"):
            heads = None
            yield number, Cell(repository, line)
            continue
        columns = line.strip("|").split("|")
        if heads is None:
            heads = columns
        for head, column in zip(heads, columns, strict=True):
            crate = re.search(r"edits of `(\w+)`", head)
            about_edits = "edits" in head and column is not head
            yield number, Cell(repository, column, about_edits, crate and crate[1])


def main():
    repository, names, missing = Repository(), 0, 0
    for number, cell in cells(repository, PAGE.read_text(encoding="utf-8")):
        names += len(cell.names)
        for name in cell.missing():
            missing += 1
            print(f"docs/PROMISES.md, line {number}: {name} is not found")
    print(f"promises: {names} names, {missing} not found")
    sys.exit(1 if missing or not names else 0)


if __name__ == "__main__":
    main()
