"""Holds the archive to what the header says of it: the symbols that it exports are exactly the
header's functions, it needs nothing from outside but functions that copy, fill and compare memory,
and it has no writable data.

    python3 tests/interface/archive.py [--archive FILE]

A compiler may put a call of memcpy, memmove, memset or memcmp wherever a program copies, fills or
compares memory; every C library has these four, also one without an operating system.
"""

import re
import subprocess

from paths import fail

from archived import archive_of, archive_parser
from header import declared_functions, header_text

NEEDED = {"memcpy", "memmove", "memset", "memcmp"}


def lines_of(*words):
    done = subprocess.run(words, capture_output=True, text=True)
    if done.returncode:
        fail(f"{' '.join(words)}\n{done.stderr}")
    return done.stdout.splitlines()


def global_symbols(archive):
    """Those defined and those undefined, also weak. A member's own line ends in a colon."""
    defined, undefined = set(), set()
    for line in lines_of("nm", "-P", "-g", archive):
        if not line.endswith(":"):
            name, kind = re.match(r"(.+?) ([A-Za-z?])(?: |$)", line).groups()
            (undefined if kind in "Uwv" else defined).add(name)
    return defined, undefined


def main():
    archive = str(archive_of(archive_parser("Holds the archive to the header.").parse_args()))
    defined, undefined = global_symbols(archive)
    declared = set(declared_functions(header_text("zarosnik.h")))
    rows = [line.split() for line in lines_of("size", archive)[1:]]
    wrong = {
        "declared but not exported": declared - defined,
        "exported but not declared": defined - declared,
        "needed from outside": undefined - NEEDED,
        "bytes of writable data": {row[5] for row in rows if int(row[1]) + int(row[2])},
    }
    found = [f"{what}: {', '.join(sorted(names))}" for what, names in wrong.items() if names]
    if found:
        fail("\n".join(found))
    needed = ", ".join(sorted(undefined)) or "nothing"
    print(f"archive: {len(defined)} functions, those of the header; needs {needed}")


if __name__ == "__main__":
    main()
