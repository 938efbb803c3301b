"""The sheet that examples/sheet.c is run with, made by the independent implementation.

    python3 tests/programs/example_sheet.py FILE    writes it
    python3 tests/programs/example_sheet.py         succeeds where examples/order.sheet is just that
                                                    and the examples hold its root
"""

import re
import sys
from pathlib import Path

from paths import ROOT, fail, say

from signatures import GATE_2, root_of
from vector_calls import SECRET, SEED
from vector_sheets import gate_sheet

EXAMPLES = ROOT / "examples"


def roots_in(path):
    """The bytes of each root that a program holds."""
    found = re.findall(r"zarosnik_tree_root \w+ = \{\{(.*?)\}\}", path.read_text(), re.DOTALL)
    return [bytes(int(byte, 16) for byte in re.findall(r"0x(\w\w)", text)) for text in found]


def main(arguments):
    # the examples' key is one of edition 2
    sheet = gate_sheet(GATE_2)
    if arguments:
        Path(arguments[0]).write_bytes(sheet)
        return
    if (EXAMPLES / "order.sheet").read_bytes() != sheet:
        fail("examples/order.sheet is not the expected one")
    for name in ["order.c", "sheet.c"]:
        if roots_in(EXAMPLES / name) != [root_of(GATE_2, SEED, SECRET)]:
            fail(f"the root in examples/{name} is not the expected one")
    say(f"{len(sheet)} bytes and the root as expected")


if __name__ == "__main__":
    main(sys.argv[1:])
