"""Measures the stack that each function of the C interface takes, and holds it to the bound that
docs/INTERFACE.md states. At the gate profile in both editions it also counts the copies of the
secret seed that are left there, and holds them to what docs/SECURITY.md states.

    python3 tests/interface/stack.py [--archive FILE]

Each function is called at the gate profile in both editions, and at the largest l, w and h with
sums at which most is to be done, in edition 2: granted and, where a refusal comes late, refused. It
runs on a stack of its own that was painted before; a byte may come to be as it was painted, so it
runs with two paints. What is counted begins at the frame of the caller, and has the arguments and
the return address in it.
"""

import ctypes
import re
import sys
import tempfile
from collections import Counter
from itertools import count

from paths import ROOT, fail, say

from archived import archive_of, archive_parser, shared_object
from operations import MOST_HASHED, ORDERS, TABLE, length_of, parameters, unit_of
from keys import right_frame
from sheets import right_sheet
from signatures import (
    GATE,
    GATE_2,
    LEAST_COUNT,
    Profile,
    count_of,
    message_number,
    reserved_key,
    signature_length,
)
from zarosnik import number_of, number_words, row_of, table_length

PAINTS = (0xA5, 0x5A)
ARGUMENTS = 16
# The most steps; the most of an order, and of one with a number of 128 bits; the largest count; the
# largest table of an order; the largest table.
SUMS = (0, 2, 133, 300, 598, 600)
PROFILES = [GATE, GATE_2, *(Profile(40, 16, s, 10, 2) for s in SUMS)]
PAGE = ROOT / "docs" / "INTERFACE.md"
SECURITY = ROOT / "docs" / "SECURITY.md"
PUBLIC_SEED, SECRET_SEED = bytes(range(1, 17)), bytes(range(0xC0, 0xD0))
# The functions that are lent the secret seed, or a frame that holds it, by the page's names.
LENT = {
    "leaf_key": "Leaf key",
    "root": "Root",
    "one_time_sign": "Reveal",
    "write_key": "Write key",
    "sign": "Sign",
    "read_key": "Read key",
}
NUMBERS = ["no", "one", "two", "three", "four", "five", "six", "seven", "eight", "nine"]


def built(archive, folder):
    options = ["-std=c11", "-O2", "-fPIC", "-Wall", "-Wextra", "-Wpedantic", "-Werror"]
    library = ctypes.CDLL(shared_object(archive, folder, *options, "tests/interface/stack.c"))
    library.stack_taken.restype = ctypes.c_size_t
    ctypes.c_char_p.in_dll(library, "secret").value = SECRET_SEED
    return library


def memory(name, content):
    kind = {1: ctypes.c_uint8, 4: ctypes.c_uint32, 8: ctypes.c_size_t}[unit_of(name)]
    return (kind * len(content))(*content)


class Caller:
    """Calls functions at one profile. What a call writes, the next may read."""

    def __init__(self, library, p):
        self.library, self.p, self.taken, self.copies = library, p, Counter(), Counter()
        signature, text = bytes(signature_length(p)), bytes(range(200))
        slices = {
            "data": bytes(MOST_HASHED),
            "table": [0] * table_length(p.l, p.s),
            "row": bytes(p.l),
            "values": bytes(16 * p.l),
            "message": text,
            "signature": signature,
            "sheet": right_sheet(p, signature, text),
            "frame": right_frame(reserved_key(p, PUBLIC_SEED, SECRET_SEED, 0)),
            "public_seed": PUBLIC_SEED,
            "secret_seed": SECRET_SEED,
        }
        self.memory = {name: memory(name, content) for name, content in slices.items()}
        for name in {q.name for operation in TABLE for q in parameters(operation)} - slices.keys():
            self.memory[name] = memory(name, [0] * length_of(name))

    def arguments(self, operation):
        """Every call begins with the last leaf reserved, or left to reserve, and with every leaf
        still taken: the one mark set names no leaf, and is there to be moved."""
        last = (1 << self.p.h) - 1
        values = {**self.p._asdict(), "leaf": last, "next_leaf": last + 1, "mark": 1}
        state = {"next_leaf": last, "mark": 0} if operation == "reserve" else {"mark": 1}
        state |= {"highest_leaf": 0, "marks": 2}
        for name, number in state.items():
            self.memory[name][0] = number
        for p in parameters(operation):
            yield values[p.name] if p.by_value else ctypes.addressof(self.memory[p.name])
            if p.has_length:
                yield len(self.memory[p.name])

    def call(self, operation, expected):
        function = getattr(self.library, f"zarosnik_{operation}")
        outcome = ctypes.c_uint32()
        for paint in PAINTS:
            given = (ctypes.c_uint64 * ARGUMENTS)(*self.arguments(operation))
            taken = self.library.stack_taken(function, given, paint, ctypes.byref(outcome))
            if taken == 0 or outcome.value != expected:
                told = f"answered {outcome.value}, took {taken} bytes"
                fail(f"{operation} at {self.p} must answer {expected}: {told}")
            self.taken[operation] = max(self.taken[operation], taken)
            left = ctypes.c_size_t.in_dll(self.library, "copies").value
            self.copies[operation] = max(self.copies[operation], left)

    def granted(self):
        """Every function; where the count is too small, an order is refused by 19. What Count has
        filled and Reveal, Sign and the writers have written, the others read."""
        rows = count_of(self.p)
        order = 0 if rows >= LEAST_COUNT else 19
        self.memory["number"][:] = number_words(rows // 2)
        for operation in TABLE:
            self.call(operation, order if operation in ORDERS else 0)
            if operation == "count":
                self.memory["number"][:] = number_words(rows // 2)
        if order == 0:
            self.memory["message"][0] ^= 1
            self.call("verify", 15)

    def shown_at_its_start(self):
        """Reveal and Sign with a row whose last length is 0: what they leave of the seed depends on
        whether the last chain is walked."""
        p = self.p
        high = p.s // (p.w - 1)
        row = bytes([p.w - 1] * high + [p.s % (p.w - 1)] + [0] * (p.l - high - 1))
        if row[-1]:
            fail(f"no such row at {p}")
        self.memory["number"][:] = number_words(number_of(p.w, p.s, row))
        self.call("one_time_sign", 0)
        leaf, root = (1 << p.h) - 1, bytes(self.memory["root"])
        for drawn in count():
            r = drawn.to_bytes(16, "big")
            text = bytes(self.memory["message"])
            number = message_number(p, r, PUBLIC_SEED, root, leaf, text)
            if row_of(p.l, p.w, p.s, number)[-1] == 0:
                break
        self.memory["r"][:] = r
        self.call("sign", 0)

    def refused(self):
        """By the last cause of each, on what the granted calls left."""
        self.memory["data"] = memory("data", bytes(MOST_HASHED + 1))
        self.memory["number"][:] = [0xFFFFFFFF] * 5
        self.memory["sheet"][-1] = self.memory["frame"][-1] = 0
        late = {"hash": 18, "unrank": 7, "one_time_sign": 7, "one_time_recover": 7}
        for operation, cause in (late | {"read_sheet": 17, "read_key": 17}).items():
            self.call(operation, cause)
        self.memory |= {n: memory(n, self.memory[n][:-1]) for n in ("sheet", "frame")}
        self.memory["row"][0] ^= 1
        for operation, cause in {"write_sheet": 6, "write_key": 6, "rank": 10}.items():
            self.call(operation, cause)


def sentence(copies):
    """What the page says of the copies that are left."""
    none = [name for operation, name in LENT.items() if copies[operation] == 0]
    some = [f"{name} at most {NUMBERS[copies[o]]}" for o, name in LENT.items() if copies[o]]
    leave = f"{', '.join(none[:-1])} and {none[-1]} leave no copy of the secret seed"
    return f"{', '.join([leave, *some[:-1]])} and {some[-1]}"


def hold_copies(callers):
    """The most that a call has left at the gate profile, which where no secret is lent is none."""
    copies = Counter()
    for caller in callers:
        if caller.p in (GATE, GATE_2):
            copies |= caller.copies
    if copies.keys() - LENT.keys():
        fail(f"copies of the secret seed where it is not lent: {dict(copies)}")
    told = sentence(copies)
    if told not in SECURITY.read_text(encoding="utf-8"):
        fail(f"docs/SECURITY.md must say '{told}'")
    say(told)


def main():
    archive = archive_of(archive_parser("Measures the stack of the C interface.").parse_args())
    with tempfile.TemporaryDirectory() as folder:
        library = built(archive, folder)
        callers = [Caller(library, p) for p in PROFILES]
        for caller in callers:
            caller.granted()
            if caller.p in (GATE, GATE_2):
                caller.shown_at_its_start()
            caller.refused()
    hold_copies(callers)
    taken = {name: [caller.taken[name] for caller in callers] for name in TABLE}
    for operation, numbers in taken.items():
        say(f"zarosnik_{operation}: {', '.join(map(str, numbers))} bytes")
    shown = "; ".join("l {}, w {}, s {}, h {}, edition {}".format(*p) for p in PROFILES)
    say(f"at {shown}")
    stated = re.findall(r"less than (\d+) KiB of stack", PAGE.read_text(encoding="utf-8"))
    if len(stated) != 1:
        fail("docs/INTERFACE.md must say 'less than N KiB of stack', once")
    most, limit = max(map(max, taken.values())), 1024 * int(stated[0])
    say(f"at most {most} bytes; docs/INTERFACE.md: less than {limit}")
    sys.exit(0 if most < limit else 1)


if __name__ == "__main__":
    main()
