"""The figures of docs/SECURITY.md, above all what a leaf that signs twice gives away: how many
message numbers the signatures of one leaf let anyone sign, counted exactly, and a forgery made with
four of them.

    python3 tests/pages/repeated_leaf.py                             prints the figures
    python3 tests/pages/repeated_leaf.py --check docs/SECURITY.md    each must be on the page

Rows a and b, signed with one leaf, show each chain from the height min(a_i, b_i) up, so every row c
with c_i >= min(a_i, b_i) at each place can be signed by hashing onward. Message numbers come from
digests of fixed texts here, so every run prints the same.
"""

import hashlib
import itertools
import math
import statistics
import sys
from pathlib import Path

from paths import say

import signatures
from signatures import GATE, Profile, Verifier, count_of
from zarosnik import first_bits, number_bits, row_of, table_length, ways

BITS = number_bits(count_of(GATE))
NUMBERS = 2**BITS
SAMPLES = 200
SIGNED = (1, 2, 3, 4)
# What a forger's try takes, in seconds: about one compression.
TRY = 50e-9
SMALL = Profile(3, 3, 3, 0, 1)


def floor_of(rows):
    """The lowest height that the rows show of each chain."""
    return [min(lengths) for lengths in zip(*rows)]


def spreads(w, floor, rest):
    """For each place, how many ways there are to raise it and those behind it by t in all."""
    tables = [[1] + [0] * rest]
    for low in reversed(floor):
        behind, room, ways_here, total = tables[-1], w - 1 - low, [], 0
        for t in range(rest + 1):
            total += behind[t] - (behind[t - room - 1] if t > room else 0)
            ways_here.append(total)
        tables.append(ways_here)
    return tables[::-1]


def signable(p, floor, bound):
    """How many numbers below the bound have a row that nowhere stands under the floor: those that
    agree with the bound's row up to a place and have a smaller length there, over all places."""
    rest = p.s - sum(floor)
    tables = spreads(p.w, floor, rest)
    if bound == ways(p.w, p.l, p.s):
        return tables[0][rest]
    found = 0
    for place, (low, length) in enumerate(zip(floor, row_of(p.l, p.w, p.s, bound))):
        found += sum(tables[place + 1][rest - t] for t in range(min(length - low, rest + 1)))
        rest -= length - low
        if length < low or rest < 0:
            break
    return found


def hold_to_list():
    """Stops unless the count is that of a plain list, for all pairs of numbers, few as they are."""
    for p in (SMALL, Profile(4, 3, 4, 0, 1), Profile(3, 4, 5, 0, 1)):
        count = ways(p.w, p.l, p.s)
        rows = [row_of(p.l, p.w, p.s, n) for n in range(count)]
        for pair in itertools.product(rows, repeat=2):
            floor = floor_of(pair)
            above = [all(c >= m for c, m in zip(row, floor)) for row in rows]
            for bound in range(1, count + 1):
                if signable(p, floor, bound) != sum(above[:bound]):
                    sys.exit(f"the count is wrong for {pair} below {bound}")


def sample_bits(orders):
    """Of each sample, the exponent of the number of digests that a forgery takes in the mean."""
    for sample in range(SAMPLES):
        texts = [b"sample %d, order %d" % (sample, order) for order in range(orders)]
        numbers = [first_bits(hashlib.sha256(text).digest(), BITS) for text in texts]
        floor = floor_of([row_of(*GATE[:3], number) for number in numbers])
        yield BITS - math.log2(signable(GATE, floor, NUMBERS))


def gate_lines():
    """A line of a table for each number of signatures: median, least and most."""
    for orders in SIGNED:
        bits = sorted(sample_bits(orders))
        middle, least, most = statistics.median(bits), bits[0], bits[-1]
        yield f"| {orders} | 2^{middle:.1f} | 2^{least:.1f} | 2^{most:.1f} |"
        if orders == 2:
            yield f"{2**middle * TRY / 60:.0f} minutes"


def small_line():
    """The example that can be followed by hand."""
    p = SMALL
    rows = [row_of(p.l, p.w, p.s, n) for n in range(ways(p.w, p.l, p.s))]
    signed = [rows[0], rows[-1]]
    floor = floor_of(signed)
    above = [row for row in rows if all(c >= m for c, m in zip(row, floor))]
    new = ", ".join(told(row) for row in above if row not in signed)
    both, share = f"{told(signed[0])} and {told(signed[1])}", f"{len(above)} of {len(rows)} rows"
    return f"{both} show {told(floor)} and up, which gives {new} too: {share}"


def told(row):
    return f"({', '.join(map(str, row))})"


def forgery():
    """With four orders on one leaf of the gate profile (with h = 0, so that the root is the leaf's
    key), an order that was never signed is accepted. How many digests it took."""
    p, seed, secret = GATE._replace(h=0), bytes(range(0x10, 0x20)), bytes(range(0xE0, 0xF0))
    root = signatures.root_of(p, seed, secret)
    shown = {}
    for order in range(4):
        r, text = bytes([order] * 16), b"sill level %d.4 m" % order
        number = signatures.message_number(p, r, seed, root, 0, text)
        values = signatures.pieces(signatures.revealed(p, seed, secret, 0, number))
        for chain, height in enumerate(row_of(*p[:3], number)):
            if chain not in shown or height < shown[chain][0]:
                shown[chain] = height, values[chain]
    # From here on only what the four signatures show.
    text = b"sill level 9.4 m"
    for tried in range(1, 2**20):
        r = tried.to_bytes(16, "big")
        row = row_of(*p[:3], signatures.message_number(p, r, seed, root, 0, text))
        if all(height >= shown[chain][0] for chain, height in enumerate(row)):
            break
    known = [shown[chain] for chain in range(p.l)]
    steps = [(chain, low, high) for chain, ((low, _), high) in enumerate(zip(known, row))]
    values = [signatures.climb(seed, 0, *step, value) for step, (_, value) in zip(steps, known)]
    signature, work = bytes(4) + r + b"".join(values), [0] * table_length(p.l, p.s)
    if signatures.check(Verifier(p, seed, root, 0, 0), text, signature, work)[0] != 0:
        sys.exit("the forged order is not accepted")
    return tried


def lines():
    count = ways(GATE.w, GATE.l, GATE.s)
    leaves = 2**GATE.h
    values = leaves * GATE.l * (GATE.w - 1) + leaves + leaves - 1
    yield f"2^{math.log2(count):.2f} rows"
    yield f"{values:,} values"
    yield f"2^{128 - math.log2(values):.0f} calls"
    yield f"2^{BITS - GATE.h} with all {leaves:,}"
    yield f"2^{BITS / 2 + math.log2(math.pi / 2) / 2:.2f} digests"
    yield small_line()
    yield from gate_lines()
    yield f"{forgery():,} digests"


def main(arguments):
    if arguments and (arguments[0] != "--check" or len(arguments) != 2):
        sys.exit("usage: repeated_leaf.py [--check PAGE]")
    hold_to_list()
    page, missing = Path(arguments[1]).read_text(encoding="utf-8") if arguments else None, 0
    for line in lines():
        print(line)
        if page is not None and line not in page:
            say(f"the line above is not in {arguments[1]}")
            missing = 1
    return missing


if __name__ == "__main__":
    sys.exit(main(sys.argv[1:]))
