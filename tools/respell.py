#!/usr/bin/env python3
"""Brings the repository's own definitions and lemmas to the spelling of today's Rattle, behind its porting scripts.

usage: python3 tools/respell.py     at the top of the repository

Words of specs/ and lemmas of proofs/ are in snake case. A dash joins two names; a plain word is joined by `_`. Types and
modules, functions of src/, exported names, inputs and outputs keep their names, and no string has such a word. Where a lemma would get the name of a
definition, it gets `_lem`. The crate hex has a library's name and becomes hex_lines.
"""

import os
import re
from collections import defaultdict

WORD = re.compile(r"[\w'·-]+")
DEFINES = re.compile(r"\s*(?:(?:abbrev|unfoldable|pub|instance)\s+)*([^\s():{}.,λ=]+) :")
NAMES = re.compile(r"\s*(?:(?:abbrev|unfoldable|pub)\s+)*(?:record|data|ruleset) ([^\s():{}.]+)")
# Words of the library that stand in names of lemmas.
WORDS = set("length take drop map sum append reverse set replicate get_or mem".split())
# What the library's scripts have renamed already, in names of lemmas.
OLD = {"getD": "get_or", "eqb": "eq", "ltb": "lt"}
OLD_CRATE, NEW_CRATE = "hex", "hex_lines"


def files(*endings, top="crates"):
    for folder, folders, names in os.walk(top):
        folders[:] = sorted(f for f in folders if f != "out")
        yield from (os.path.join(folder, n) for n in sorted(names) if n.endswith(endings))


def read(path):
    with open(path, encoding="utf-8") as f:
        return f.read()


def write(path, text):
    if text != read(path):
        with open(path, "w", encoding="utf-8") as f:
            f.write(text)


def of_a_function(path):
    """Whether a proof file is that of one function, whose names are Rattle's."""
    return os.path.basename(path) in ("Proof.antt", "Answers.antt", "Invariants.antt") and path.count(os.sep) > 3


def snake(word):
    word = OLD.get(word, word)
    return re.sub("(?<=[a-z0-9])[A-Z]", lambda m: "_" + m.group().lower(), word)


def renamed(names, stated, taken):
    """The new name of each definition and lemma that gets one. What is stated, in specs/, has no dash."""
    spelt = names | WORDS | {snake(n) for n in names}
    new = {}
    for name in sorted(names):
        if name[0].isupper():
            continue
        words = name.split("-")
        text = snake(words[0])
        for before, word in zip(words, words[1:]):
            joined = name not in stated and snake(before) in spelt and snake(word) in spelt
            text += ("-" if joined else "_") + snake(word)
        new[name] = text
    count = defaultdict(list)
    for name, text in new.items():
        count[text].append(name)
    for text, same in count.items():
        for name in same:
            if "-" in name and (len(same) > 1 or text in taken):
                new[name] = text + "_lem"
    return {name: text for name, text in new.items() if name != text}


def main():
    names, stated = set(), set()
    for path in files(".antt"):
        text = read(path)
        if not of_a_function(path):
            for line in text.split("\n"):
                found = NAMES.match(line) or DEFINES.match(line)
                if found:
                    names.add(found.group(1))
                    if path.split(os.sep)[2] == "specs":
                        stated.add(found.group(1))
    definitions = {n for n in names if "-" not in n}
    new = renamed(names, stated, definitions)
    for path in files(".antt", ".edit"):
        write(path, WORD.sub(lambda m: new.get(m.group(), m.group()), read(path)))
    camel = {n: t for n, t in new.items() if "-" not in n}
    for path in files(".rt"):
        write(path, WORD.sub(lambda m: camel.get(m.group(), m.group()), read(path)))
    # The crate with a library's name.
    if os.path.isdir(f"crates/{OLD_CRATE}"):
        os.rename(f"crates/{OLD_CRATE}", f"crates/{NEW_CRATE}")
        write("crates.txt", re.sub(rf"\b{OLD_CRATE}\b", NEW_CRATE, read("crates.txt")))
        for path in files(".rt", ".antt", ".edit"):
            text = re.sub(rf"\bRattle\.{OLD_CRATE}\.", f"Rattle.{NEW_CRATE}.", read(path))
            text = re.sub(rf"\buse {OLD_CRATE}::", f"use {NEW_CRATE}::", text)
            text = re.sub(rf"(?<![\w:]){OLD_CRATE}::", f"{NEW_CRATE}::", text)
            write(path, text)
    for name in sorted(new):
        print(name, new[name])


if __name__ == "__main__":
    main()
