"""Runs every test vector of the folder vectors/ through the C interface, by the archive that C
programs link, and compares the answer, the states and all memory lent.

    python3 tests/vectors/vectors.py [--archive FILE]

Fails where a call differs, and where something has no vector: an operation granted, each of its
refusals, a number of a profile that would be the gate's if it were cut, or a kind of calls of
tests/kinds/, of which the vectors have all but some: `WANTED` says which. The files themselves are
held to the independent implementation by tests/vectors/make_vectors.py, the page's worked values by
tests/pages/worked_order.py.
"""

import json
import sys
import tempfile
from collections import Counter

from paths import say

import comparisons
import editions
import shapes
import stored_keys
import windows
import written_sheets
from archived import archive_of, archive_parser, shared_object
from calls import Call, laid_out, load
from make_vectors import FAMILIES, FOLDER
from met import Met
from operations import LENT, NUMBERS, TABLE, numbers_told, parameters
from vector_calls import FILL, filled
from vector_keys import READ
from vector_orders import WINDOW_KINDS, order_shapes
from vector_refusals import CUT
from vector_sheets import EDGE_TEXTS
from zarosnik import filled as with_counts

FRAMES = {stored_keys.told_frame(kind): kind for kind in READ}
WANTED = {
    comparisons: comparisons.wanted(),
    shapes: shapes.wanted_at(order_shapes() + shapes.nearly_signing()),
    windows: WINDOW_KINDS,
    editions: editions.wanted(),
    written_sheets: written_sheets.wanted_with(map(len, EDGE_TEXTS)),
    stored_keys: [*stored_keys.wanted_but_read(), *stored_keys.read_wanted(READ)],
}


def value_of(name, told):
    if isinstance(told, str):
        return int(told, 16) if name in NUMBERS else bytes.fromhex(told)
    return told


def call_of(vector, shift):
    operation, told, left = vector["operation"], dict(vector["in"]), dict(vector["out"])
    outcome = left.pop("outcome")
    if operation == "hash":
        told["data"] *= told.pop("times")
    given = {name: filled(name, told.pop(f"{name}_len")) for name in LENT[operation]}
    given |= {name: value_of(name, value) for name, value in told.items()}
    after = {}
    for name, value in left.items():
        if value == "counts":
            after[name] = with_counts(given["l"], given["w"], given["s"], given[name])
        else:
            after[name] = given[name] if value == "untouched" else value_of(name, value)
    memory = laid_out(operation, given, after, lambda size: bytes([FILL]) * size)
    call = Call(operation, given, outcome, after, memory, shift % 16)
    if operation == "read_key" and vector["note"] in FRAMES:
        call.stated = "stored", FRAMES[vector["note"]]
    return call


def run(library):
    """Whether no vector differs and nothing has none."""
    met, made, failed, cut = Met(), Counter(), 0, set()
    for family in FAMILIES:
        vectors = json.loads((FOLDER / f"{family}.json").read_text(encoding="ascii"))["vectors"]
        for place, vector in enumerate(vectors, 1):
            call = call_of(vector, place)
            wrong = call.make(library)
            if wrong:
                say(f"vectors/{family}.json, vector {place}, {vector['note']}: differs")
                print("\n".join(f"  {line}" for line in [str(call), *wrong]))
            failed += bool(wrong)
            made[call.operation, call.outcome] += 1
            cut |= {(call.operation, n) for n in CUT if call.given.get(n) == CUT[n]}
            met.add(call)
        say(f"{family}: {len(vectors)}")
    expected = {(name, number) for name in TABLE for number in [0, *numbers_told(name)]}
    taken = {(name, p.name) for name in TABLE for p in parameters(name) if p.name in CUT}
    lacking = [f"{name} answers {outcome}" for name, outcome in sorted(expected ^ made.keys())]
    lacking += [f"{name} with {n} = {CUT[n]}" for name, n in sorted(taken - cut)]
    lacking += met.missing(WANTED)
    for line in lacking:
        say(f"no vector, or no answer of the operation: {line}")
    say(f"{made.total()} vectors, {failed} differ, {len(lacking)} things missing")
    return not failed and not lacking


def main():
    parser = archive_parser("Runs the test vectors through the C interface.")
    with tempfile.TemporaryDirectory() as folder:
        library = load(shared_object(archive_of(parser.parse_args()), folder))
        sys.exit(0 if run(library) else 1)


if __name__ == "__main__":
    main()
