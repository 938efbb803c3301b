"""Runs every call of the second header, include/zarosnik_types.h, over the archive, as C11 and as
C++17, in both editions: typed_calls.c makes the calls.

    python3 tests/interface/typed_calls.py [--archive FILE]
"""

import tempfile
from pathlib import Path

from paths import TESTS

from archived import archive_of, archive_parser, command
from header import COMPILERS, INCLUDE, WARNINGS
from signatures import EDITIONS


def main():
    archive = archive_of(archive_parser("Runs the calls of the second header.").parse_args())
    source = str(TESTS / "interface" / "typed_calls.c")
    with tempfile.TemporaryDirectory() as folder:
        program = str(Path(folder, "typed_calls"))
        for edition in EDITIONS:
            options = [*WARNINGS, "-O2", f"-I{INCLUDE}", f"-DEDITION={edition}u", "-o", program]
            for compiler in COMPILERS:
                command(*compiler, *options, source, "-x", "none", str(archive))
                command(program)
    compilers = ", ".join(compiler[0] for compiler in COMPILERS)
    print(f"typed calls: every call as expected in both editions, compiled by {compilers}")


if __name__ == "__main__":
    main()
