"""Test vectors of single calls: what a call is given, what it answers and what it leaves, from the
implementation that is independent of the library.

vectors/README.md says the format. Also here: the seeds and texts that the vectors share.
"""

import hashlib

from answers import answer, arguments
from operations import LENT, NUMBERS
from signatures import GATE, Profile

# What stands in lent memory and in answers before a call.
FILL = 0xA5
# A table of so many words is written out; of a longer one it is said that it is the table.
WHOLE_TABLE = 400

# Seeds, R and text of examples/order.c.
SEED = bytes(range(0x10, 0x20))
SECRET = bytes(range(0xE0, 0xF0))
SEEDS = {"public_seed": SEED, "secret_seed": SECRET}
R = bytes(range(0x71, 0x81))
ORDER = b"sill level 2.4 m until 18:00"
OTHER_ORDER = b"sill level 9.4 m until 18:00"
LONG_ORDER = (b"sill level 2.4 m from 06:00, 2.1 m from 09:00, 1.8 m from 12:00, " * 4)[:200]

SMALL = Profile(3, 3, 3, 1, 1)
GATE_SHAPE = GATE[:3]


def hexed(data):
    return data.hex().upper()


def number_hex(number):
    return f"{number:040X}"


def filled(name, size):
    return [FILL * 0x01010101] * size if name == "table" else bytes([FILL]) * size


def derived(label, size=16):
    """Bytes that look random and are the same in every run."""
    return hashlib.shake_128(label.encode()).digest(size)


def flipped(data, at):
    """The lowest bit of one byte is another."""
    at %= len(data)
    return data[:at] + bytes([data[at] ^ 1]) + data[at + 1 :]


def shown(name, value, before=None):
    """What is told of a value; `before` is what a slice that the call may write held."""
    if before is not None and value == before:
        return "untouched"
    if isinstance(value, bytes):
        return hexed(value)
    if isinstance(value, list) and len(value) > WHOLE_TABLE:
        return "counts"
    return number_hex(value) if name in NUMBERS else value


def vector_and_left(operation, note, thing=None, **given):
    """An operation, words for the reader, what the call is given and what it answers and leaves;
    and this by name. A profile, a key or a cabinet stands for its fields, and a number for a slice
    that may be written, of this length. What an operation does not take is left out."""
    lent = LENT[operation]
    given = arguments(operation, thing, given)
    slices = {name: filled(name, given[name]) for name in lent}
    outcome, left = answer(operation, {**given, **slices})
    told = {f"{n}_len" if n in lent else n: shown(n, value) for n, value in given.items()}
    after = {name: shown(name, value, slices.get(name)) for name, value in left.items()}
    made = {"operation": operation, "note": note, "in": told, "out": {"outcome": outcome, **after}}
    return made, left


def vector(operation, note, thing=None, **given):
    return vector_and_left(operation, note, thing, **given)[0]


def held(outcome, made):
    """The vector, which must have this outcome."""
    if made["out"]["outcome"] != outcome:
        raise ValueError(f"not answered by {outcome}: {made}")
    return made


def hash_vector(note, data, times=1):
    made = vector("hash", note, data=data * times)
    return {**made, "in": {"data": hexed(data), "times": times}}
