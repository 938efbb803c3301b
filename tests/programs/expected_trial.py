"""The standard input of the program `trial`, and its expected standard output.

    python3 tests/programs/expected_trial.py DIR            writes DIR/stdin and DIR/stdout
    python3 tests/programs/expected_trial.py --check DIR    succeeds where they are exactly those

The cases are the document's trial values, the published SHA-256 examples, some values for each
operation, each operation at both editions and at numbers that are neither, and what the C interface
cannot be given: states of the running hash, counts that no profile has, and digests.
tests/interface/compare.py has the breadth. Nothing here is taken from the program or from the
library under test: the SHA-256 below is held to hashlib, and all else comes from the independent
implementation, which tests/vectors/make_vectors.py holds to lists of all rows and binary digits.
"""

import argparse
import hashlib
import itertools
import re
from collections import namedtuple
from pathlib import Path

from paths import fail

import editions
import signatures
import zarosnik
from sheets import read_sheet, right_sheet
from signatures import EDITIONS, GATE, LEAST_COUNT, Profile, SigningKey, Verifier
from signatures import fresh_key, root_of, signature_length
from vector_calls import SECRET, SEED, R, flipped
from zarosnik import MOST_BITS, around_powers, first_bits, number_bits, number_words, table_length

MASK = 0xFFFFFFFF
MOST = 65535
TEXT = b"Gate 7: open 40 cm from 06:15 to 09:30 on 12 March.\n"


def message(length):
    """Bytes of which no two neighbours are equal."""
    return bytes((7 * i + i // 256 + 3) % 256 for i in range(length))


def stale_words(count):
    return [0xA5000000 + i for i in range(count)]


def stale_bytes(count):
    """No byte is a length of any width."""
    return bytes(160 + i % 64 for i in range(count))


def word(n):
    return n.to_bytes(4, "big")


def words(numbers):
    return b"".join(map(word, numbers))


# A case is what the program reads of a call: how many words are lent, the bytes of three slices,
# the number of the operation and what else it takes; and the line that it must write. The label,
# which begins the line, is the first of the slices.
OPERATIONS = ["sha256", "count", "spread", "gather", "leaf key", "root", "reveal", "recover"]
OPERATIONS += ["orders", "check", "sheet", "bits", "first bits"]
Slices = namedtuple("Slices", "table lent text", defaults=([], b"", b""))


def case(operation, label, taken, told, before=Slices(), after=None):
    """From what a call takes and tells, and what the slices hold before and, where it is something
    else, after it. Of a table the sum of all words is told, and the sum of the sums up to each."""
    label, after = f"{operation} {label}", after or before
    slices = [label.encode("ascii"), before.lent, before.text]
    given = words([len(before.table), *map(len, slices)]) + b"".join(slices)
    sums = list(itertools.accumulate(after.table, initial=0))
    left = f"table {sums[-1] & MASK} {sum(sums) & MASK}, bytes {after.lent.hex()}"
    line = f"{label}: {told}, {left}, text {after.text.hex()}"
    return given + word(OPERATIONS.index(operation)) + taken, line


def held(outcomes, *made):
    """The cases, each of which must be answered so by the document: of a desk the steps, all by one
    outcome or each by its own; of a cabinet, which then has passed the leaf, the first check."""
    for given, line in made:
        found = [int(number) for number in re.findall(r": outcome (\d+)", line)]
        found = found if line.startswith("orders ") else found[:1]
        if not found or found not in (outcomes, outcomes * len(found)):
            fail(f"not answered by {outcomes}: {line}")
        yield given, line


def number_told(n):
    return "number " + " ".join(map(str, number_words(n)))


# SHA-256, by FIPS 180-4: hashlib cannot start from a given state.

PRIMES = [n for n in range(2, 312) if all(n % divisor for divisor in range(2, n))]
# 5.3.3 and 4.2.2: the first 32 bits of the fractional parts of the primes' square and cube roots.
INITIAL = [int(p ** (1 / 2) % 1 * 2**32) for p in PRIMES[:8]]
ROUND_WORDS = [int(p ** (1 / 3) % 1 * 2**32) for p in PRIMES]


def rotr(n, x):
    return (x >> n | x << (32 - n)) & MASK


def compress(state, block):
    """6.2.2: the eight words after one block of 64 bytes."""
    w = [int.from_bytes(block[4 * t : 4 * t + 4], "big") for t in range(16)]
    for t in range(16, 64):
        s0 = rotr(7, w[t - 15]) ^ rotr(18, w[t - 15]) ^ (w[t - 15] >> 3)
        s1 = rotr(17, w[t - 2]) ^ rotr(19, w[t - 2]) ^ (w[t - 2] >> 10)
        w.append((s1 + w[t - 7] + s0 + w[t - 16]) & MASK)
    a, b, c, d, e, f, g, h = state
    for t in range(64):
        t1 = h + (rotr(6, e) ^ rotr(11, e) ^ rotr(25, e))
        t1 += ((e & f) ^ (~e & g)) + ROUND_WORDS[t] + w[t]
        t2 = (rotr(2, a) ^ rotr(13, a) ^ rotr(22, a)) + ((a & b) ^ (a & c) ^ (b & c))
        a, b, c, d, e, f, g, h = (t1 + t2) & MASK, a, b, c, (d + t1) & MASK, e, f, g
    return [(x + y) & MASK for x, y in zip(state, [a, b, c, d, e, f, g, h])]


class Hash(namedtuple("Hash", "state block total", defaults=(INITIAL, bytes(64), 0))):
    """The running hash: the words, a block with total modulo 64 pending bytes, and the total."""

    def blocks(self, data):
        """The words after the whole blocks of what is pending and data, and the bytes behind."""
        data, state = self.block[: self.total % 64] + data, self.state
        end = len(data) // 64 * 64
        for at in range(0, end, 64):
            state = compress(state, data[at : at + 64])
        return state, data[end:]

    def add(self, data):
        """The number of the outcome, and the state that is handed back."""
        if self.total + len(data) > MOST:
            return 18, self
        state, rest = self.blocks(data)
        return 0, Hash(state, rest + bytes(64 - len(rest)), self.total + len(data))

    def digest(self):
        """5.1.1: a one bit, zeros and the number of bits; then the words' bytes."""
        padding = b"\x80" + bytes(-(self.total + 9) % 64) + (8 * self.total).to_bytes(8, "big")
        return words(self.blocks(padding)[0])


def hold_to_hashlib():
    """On messages whole and in two pieces."""
    for n in [*range(260), 4095, 4096, MOST]:
        for cut in (n, n * 5 // 7):
            found = Hash().add(message(n)[:cut])[1].add(message(n)[cut:])[1].digest()
            if found != hashlib.sha256(message(n)).digest():
                fail(f"the SHA-256 of this script is wrong at length {n}")


# The examples of FIPS 180-4, and a message of no bytes.
EXAMPLES = [
    "",
    "abc",
    "abcdbcdecdefdefgefghfghighijhijkijkljklmklmnlmnomnopnopq",
    "abcdefghbcdefghicdefghijdefghijkefghijklfghijklmghijklmnhijklmno"
    "ijklmnopjklmnopqklmnopqrlmnopqrsmnopqrstnopqrstu",
]
# Lengths of two pieces: on both sides of each place at which the padding or the block changes.
PIECES = [(1, 0), (55, 0), (0, 56), (13, 42), (20, 43), (30, 34), (1, 64), (64, 55), (600, 200)]
STALE_WORDS = [0x01234567, 0x89ABCDEF, 0xFEDCBA98, 0x76543210, 0xDEADBEEF, 0, MASK, 0x80000001]
# A total and two pieces. At most 65,535 bytes are taken in all; a refused piece changes nothing.
# Every byte of the block counts, also where nothing is pending.
STATES = [
    *[(0, 0, 0), (64, 0, 0), (70, 0, 0), (70, 60, 0), (70, 57, 70), (127, 1, 63)],
    *[(65535, 0, 0), (65535, 1, 0), (65500, 35, 1), (65500, 36, 35), (65400, 200, 135)],
]


def hash_case(label, data, cut, state=Hash(), taken=(0,)):
    one, two = data[:cut], data[cut:]
    first, middle = state.add(one)
    second, last = middle.add(two)
    told = f"outcome {first}: outcome {second}, total {last.total}, block {last.block.hex()}"
    told += f", finished: total 0, block {bytes(64).hex()}, digest {last.digest().hex()}"
    return case("sha256", label, words(taken), told, Slices([], one, two))


def hash_cases():
    hold_to_hashlib()
    for text in EXAMPLES:
        yield hash_case(f'"{text}"', text.encode("ascii"), len(text))
    for one, two in PIECES:
        yield hash_case(f"{one} and {two} bytes", message(one + two), one)
    for total, one, two in STATES:
        state, label = Hash(STALE_WORDS, b"\xa5" * 64, total), f"{one} and {two} bytes"
        yield hash_case(f"at total {total}, {label}", message(one + two), one, state, [1, total])


# Profiles. The document's starred trial values are proved; here are the others, and some more.

SMALL = Profile(3, 3, 3, 2, 1)
WIDE = Profile(40, 16, 0, 1, 1)
FLAT = GATE._replace(h=0)
TALL = GATE._replace(h=3)
# Orders have numbers of 8 bits, and of 127. The first has the least count that signs, which is 266.
FEWEST_BITS = Profile(7, 3, 5, 0, 1)
NEARLY_ALL_BITS = FLAT._replace(s=204)
# The largest count that does not sign, which is 255.
NEARLY_SIGNING = Profile(5, 5, 7, 1, 1)
SHEET = Profile(2, 3, 2, 1, 1)
# Outside the limits, also by numbers that narrower types would cut to right ones.
OUTSIDE_SHAPE = [
    *[SMALL._replace(**one) for one in ({"l": 41}, {"l": MASK}, {"w": MASK}, {"s": MASK})],
    Profile(256 + 3, 256 + 3, 65536 + 3, 256 + 2, 1),
    Profile(MASK, MASK, MASK, MASK, 1),
]
OUTSIDE = [*OUTSIDE_SHAPE, SMALL._replace(h=256 + 2), SMALL._replace(h=MASK)]


def named(p, more=""):
    return ", ".join(f"{name} {n}" for name, n in zip(Profile._fields, p)) + more


def table_of(p, more=0):
    """Stale words: as many as the table has, and some more."""
    return stale_words(more + (table_length(p.l, p.s) if p.l <= 40 and p.s <= 600 else 80))


# One operation each, or two, of which the second is given what the first left.


def count_case(p, told_of=3):
    """So many numbers of the profile are in the label, here and below. Three words and three bytes
    more than needed are lent."""
    table = table_of(p, 3)
    outcome, count, filled = zarosnik.count(*p[:3], table)
    told = f"outcome {outcome}, {number_told(count)}"
    return case("count", named(p[:told_of]), words(p), told, Slices(table), Slices(filled))


def round_trip(p, n, told_of=3):
    """Spread, and Gather of the row that it left."""
    label, table, row = named(p[:told_of]), table_of(p, 3), stale_bytes(min(p.l, 41) + 3)
    outcome, left, filled = zarosnik.spread(*p[:3], n, table, row)
    taken, slices = words([*p, *number_words(n)]), (Slices(table, row), Slices(filled, left))
    yield case("spread", f"{label}, number {n}", taken, f"outcome {outcome}", *slices)
    row = left[:-3]
    outcome, number, filled = zarosnik.gather(*p[:3], row, table)
    told = f"outcome {outcome}, {number_told(number)}"
    yield case("gather", label, words(p), told, Slices(table, row), Slices(filled, row))


def leaf_key_case(p, leaf):
    outcome, key = signatures.leaf_key(p, SEED, SECRET, leaf)
    taken, told = words(p) + SEED + SECRET + word(leaf), f"outcome {outcome}, key {key.hex()}"
    return case("leaf key", named(p, f", leaf {leaf}"), taken, told)


def root_case(p):
    outcome, root = signatures.root(p, SEED, SECRET)
    told = f"outcome {outcome}, root {root.hex()}"
    return case("root", named(p), words(p) + SEED + SECRET, told)


def shown_values(p, leaf, n, table=None, size=None):
    """Reveal, and Recover from what it left."""
    table = table_of(p) if table is None else table
    values, label = stale_bytes(size or 16 * min(p.l, 41)), named(p, f", leaf {leaf}, number {n}")
    outcome, left, filled = signatures.reveal(p, SEED, SECRET, leaf, n, table, values)
    place, slices = words([leaf, *number_words(n)]), (Slices(table, values), Slices(filled, left))
    taken = words(p) + SEED + SECRET + place
    yield case("reveal", label, taken, f"outcome {outcome}", *slices)
    outcome, key, steps, filled = signatures.recover(p, SEED, leaf, n, left, table)
    told = f"outcome {outcome}, key {key.hex()}, steps {steps}"
    slices = Slices(table, left), Slices(filled, left)
    yield case("recover", label, words(p) + SEED + place, told, *slices)


# The steps of a desk, by the program's numbers.
RESERVE, SIGN, RESTART = range(3)
TWO_ORDERS = [RESERVE, SIGN] * 2


def orders_case(key, size, steps=TWO_ORDERS, text=TEXT, table=None):
    """Each step has the key that the one before handed back. An order goes into the slice, and with
    a refusal the one before it stays there."""
    p, lent, told = key.profile, stale_bytes(size), []
    table = table_of(p) if table is None else table
    label, before = named(p, f", next {key.next}, mark {key.mark}"), Slices(table, lent, text)
    taken = words(p) + key.seed + key.secret + words([key.next, key.mark]) + R
    for step in steps:
        if step == RESERVE:
            outcome, key = signatures.reserve(key)
        elif step == SIGN:
            outcome, key, lent, table = signatures.sign(key, R, text, table, lent)
        else:
            key = signatures.restarted(key)
        name = [f"reserve: outcome {outcome}", f"sign: outcome {outcome}", "restart"][step]
        told.append(f"{name}, next {key.next}, mark {key.mark}")
    taken += words([len(steps), *steps])
    return case("orders", label, taken, ": ".join(told), before, Slices(table, lent, text))


def signed(p, leaf):
    """What would be accepted if its count were taken, where this is too small."""
    number = signatures.message_number(p, R, SEED, root_of(p, SEED, SECRET), leaf, TEXT)
    return signatures.signature_of(p, SEED, SECRET, leaf, R, number)


def cabinet_of(p, highest=0, marks=0):
    return Verifier(p, SEED, root_of(p, SEED, SECRET), highest, marks)


def check_case(cabinet, signature, change="", text=TEXT, table=None):
    """Two checks, the second by the cabinet that the first handed back."""
    p, told, window = cabinet.profile, [], "highest {0.highest}, marks {0.marks}"
    table = table_of(p) if table is None else table
    label, before = named(p, f", {window.format(cabinet)}{change}"), Slices(table, signature, text)
    taken = words(p) + cabinet.seed + cabinet.root + words([cabinet.highest, cabinet.marks])
    for _ in range(2):
        outcome, cabinet, steps, table = signatures.check(cabinet, text, signature, table)
        told.append(f"outcome {outcome}, {window.format(cabinet)}, steps {steps}")
    return case("check", label, taken, ": ".join(told), before, Slices(table, signature, text))


def sheet_case(p, sheet, size, room=200, change=""):
    before = Slices([], stale_bytes(size), stale_bytes(room))
    outcome, wrong, length, *left = read_sheet(p, sheet, before.lent, before.text)
    told, taken = f"outcome {outcome}, line {wrong}, length {length}", word(len(sheet)) + sheet
    return case("sheet", named(p, change), taken + words(p), told, before, Slices([], *left))


# What the document has, and more of its kind.


def code_cases():
    """Count, Spread and Gather."""
    middle, count = Profile(17, 5, 30, 0, 1), signatures.count_of(GATE)
    yield from map(count_case, [SMALL, middle, WIDE, GATE, *OUTSIDE_SHAPE])
    numbered = [(SMALL, 0), (SMALL, 5), (SMALL, 7), (middle, 0x123456789), (WIDE, 0), (WIDE, 1)]
    numbered += [(GATE, n) for n in (0, count - 1, count, (1 << 128) - 1)]
    for p, n in numbered + [(p, 0) for p in OUTSIDE_SHAPE]:
        yield from round_trip(p, n)


def key_cases():
    """Leaf key and Root; Reveal and Recover. FIPS 205's WOTS+ keys of SLH-DSA-SHA2-128 in layer 0,
    tree 0 are those of l = 35 and w = 16; l = 40, w = 16, s = 0 makes 600 steps."""
    fips = Profile(35, 16, 262, 2, 1)
    leaves = [(SMALL, 0), (SMALL, 3), (SMALL, 4), (fips, 3), (WIDE, 1), (GATE, 1023), (SMALL, MASK)]
    for p, leaf in leaves + [(p, 0) for p in OUTSIDE]:
        yield leaf_key_case(p, leaf)
    yield from map(root_case, [SMALL, FLAT, WIDE, Profile(4, 2, 2, 10, 1), *OUTSIDE])
    shown = [(SMALL, 3, 5), (SMALL, 4, 5), (SMALL, 0, 7), (WIDE, 1, 0), (GATE, 682, (1 << 128) - 1)]
    for given in shown + [(p, 0, 0) for p in OUTSIDE]:
        yield from shown_values(*given)


# Next leaf and mark of a key with two leaves, and steps, each with the outcome that the document
# gives it; a restart has none.
COUNTERS = [
    # a reserved leaf stands in the way of the next, and signs once
    (0, 0, [(RESERVE, 0), (RESERVE, 21), (SIGN, 0), (SIGN, 20), (RESERVE, 0)]),
    # before the last leaf has signed 21 is told, and afterwards 12
    (1, 0, [(SIGN, 20), (RESERVE, 0), (RESERVE, 21), (SIGN, 0), (RESERVE, 12), (SIGN, 20)]),
    (2, 1, [(RESERVE, 21), (SIGN, 0)]),
    # a restart gives up the leaf that is reserved
    (0, 0, [(RESERVE, 0), (RESTART, None), (SIGN, 20), (RESERVE, 0), (SIGN, 0)]),
    # idle marks, which a refused call hands back
    (0, 1, [(SIGN, 20), (RESERVE, 0), (SIGN, 0)]),
    (3, 1, [(SIGN, 20), (RESERVE, 12), (RESTART, None)]),
    (MASK, 1, [(SIGN, 20), (RESERVE, 12), (RESTART, None)]),
]


def document_orders(edition):
    for p in [q._replace(edition=edition) for q in (FLAT, FEWEST_BITS, NEARLY_ALL_BITS)]:
        # one order, then 12 from Reserve; the order accepted, then passed; and another text
        yield orders_case(fresh_key(p, SEED, SECRET), signature_length(p) + 3)
        yield check_case(cabinet_of(p), signed(p, 0))
        yield check_case(cabinet_of(p), signed(p, 0), ", another text", TEXT[:-1])
    # 19, and 20 before it
    p = NEARLY_SIGNING._replace(edition=edition)
    for steps in (TWO_ORDERS, [SIGN]):
        yield orders_case(SigningKey(p, SEED, SECRET, 1, 0), signature_length(p) + 3, steps)
    yield check_case(cabinet_of(p, 1, 2), signed(p, 1))
    p = FEWEST_BITS._replace(h=1, edition=edition)
    for *counter, answers in COUNTERS:
        steps = [step for step, _ in answers]
        made = orders_case(SigningKey(p, SEED, SECRET, *counter), signature_length(p), steps)
        yield from held([outcome for step, outcome in answers if step != RESTART], made)


# The highest leaf and the marks of cabinets, by the leaf that they are given. The leaf 40: with no
# mark set; higher than theirs by few, by 31, by 32 and by more; older, not marked, marked and too
# old. The leaf 3: with marks that name no leaf.
WINDOWS = {
    40: [
        *[(0, 0), (40, 0), (72, 0), (MASK, 0)],
        *[(37, 0b1011), (9, 3), (9, MASK), (8, 1), (8, MASK), (0, 1), (20, 1 << 31)],
        *[(40, 2), (40, 1), (43, 0b101), (43, 0b1001), (71, 1), (71, 1 << 31), (71, MASK >> 1)],
        *[(72, 1), (73, MASK), (MASK, 1), (MASK, MASK)],
    ],
    3: [(5, 1 << 20), (5, 1 << 20 | 4), (3, 1 << 31), (2, 1 << 31), (1, MASK)],
}


def window_cases(edition, leaf, windows, change="", text=TEXT):
    """At a profile with few steps."""
    p = FEWEST_BITS._replace(h=6, edition=edition)
    for window in windows:
        yield check_case(cabinet_of(p, *window), signed(p, leaf), f", leaf {leaf}{change}", text)


def order_cases():
    """Reserve, Sign and Check."""
    yield from document_orders(1)
    yield orders_case(SigningKey(TALL, SEED, SECRET, 5, 0), signature_length(TALL))
    for p in [SMALL, *OUTSIDE]:
        yield orders_case(fresh_key(p, SEED, SECRET), 100)
    # it has accepted the leaves 0 and 2
    cabinet, signature = cabinet_of(TALL, 2, 5), signed(TALL, 5)
    yield check_case(cabinet, signature)
    yield check_case(cabinet, signature, ", another text", TEXT[:-1])
    yield check_case(cabinet, flipped(signature, 20), ", another value")
    for p in [SMALL, *OUTSIDE]:
        yield check_case(Verifier(p, SEED, bytes(16), 0, 0), bytes(100))
    for leaf, windows in WINDOWS.items():
        yield from window_cases(1, leaf, windows)
        yield from window_cases(1, leaf, windows[::4], ", another text", TEXT[:-1])


def long_sheet(p):
    size = signature_length(p)
    return sheet_case(p, right_sheet(p, message(size), message(200)), size)


def sheet_cases():
    size, room = signature_length(SHEET), len(TEXT)
    right = right_sheet(SHEET, message(size), TEXT)
    for sheet, *given in [
        (right, size + 3, room + 3),
        (right[:-1], size, 200, ", the last ending missing"),
        (right + b"0", size, 200, ", more behind it"),
        (right[:60] + right[60:].lower(), size, 200, ", lower case"),
        (right, size - 1, 200, ", a short slice"),
        (right, size, room - 1, ", a short text slice"),
    ]:
        yield sheet_case(SHEET, sheet, *given)
    yield long_sheet(GATE)
    yield from (sheet_case(other, right, size) for other in OUTSIDE)


def bits_case(label, counts):
    """For each count the bits of an order's number, and whether it is too small for one."""
    told = [f"{number_bits(n)}{' small' if n < LEAST_COUNT else ''}" for n in counts]
    taken = words([len(counts), *(word for n in counts for word in number_words(n))])
    return case("bits", label, taken, " ".join(told))


def bits_cases():
    """Counts up to the ends of five words, most of which no profile has, and numbers of 0 to 128
    bits. No shape has a count of 0, which has no power of two below it; it is told as 0 bits."""
    yield bits_case("of 0", [0])
    yield bits_case("of 1, 255, 256, 257, 2^160 - 1", [1, 255, 256, 257, (1 << 160) - 1])
    for low in range(0, 160, 8):
        label = f"of 2^k - 1, 2^k, 2^k + 1, k {low} to {low + 7}"
        yield bits_case(label, around_powers(range(low, low + 8)))
    # every bit set, in the second half alone, and of both kinds; the 129 numbers in three lines
    digests = [b"\xff" * 32, bytes(16) + b"\xff" * 16, hashlib.sha256(b"abc").digest()]
    for digest, low in itertools.product(digests, range(0, MOST_BITS + 1, 43)):
        numbers = [number_told(first_bits(digest, bits)) for bits in range(low, low + 43)]
        told = ", ".join([f"from {low}", *numbers])
        yield case("first bits", f"of {digest.hex()}", digest + words([low, 43]), told)


# Editions.


def all_right_at(edition):
    """The operations that a profile's edition is for. Where it is none, the order and the sheet are
    those of edition 1."""
    right = edition if edition in EDITIONS else 1
    profiles = SMALL, FEWEST_BITS._replace(h=1), SHEET
    p, order, sheet = (q._replace(edition=edition) for q in profiles)
    yield leaf_key_case(p, 3)
    yield root_case(p)
    yield from shown_values(p, 3, 5)
    yield orders_case(fresh_key(order, SEED, SECRET), signature_length(order))
    yield check_case(cabinet_of(order), signed(order._replace(edition=right), 1), ", leaf 1")
    size = signature_length(sheet)
    shown = right_sheet(sheet._replace(edition=right), message(size), TEXT)
    yield sheet_case(sheet, shown, size, 200, ", a right sheet")


def all_wrong_at(p):
    """The same with everything wrong that is tested behind the profile."""
    short = stale_words(3)
    yield leaf_key_case(p, MASK)
    yield root_case(p)
    yield from shown_values(p, MASK, (1 << 160) - 1, [], 3)
    yield orders_case(SigningKey(p, SEED, SECRET, MASK, 1), 3, TWO_ORDERS, b"", short)
    yield check_case(Verifier(p, SEED, R, MASK, MASK), b"\xff" * 5, "", b"", short)
    yield sheet_case(p, b"474F31", 3, 3, ", no right line")


def any_edition_cases():
    """Count, Spread and Gather know no edition. Where it is neither of the two, 22 goes before all
    that is tested later, and behind 4 and 3. One would be edition 2 if it were cut."""
    for edition in (0, 1, 2, 3, 256 + 2, MASK):
        p = SMALL._replace(edition=edition)
        yield from held([0], count_case(p, 5), *round_trip(p, 5, 5))
        yield from held([editions.answer_to(edition)], *all_right_at(edition))
    for edition in (0, MASK):
        yield from held([22], *all_wrong_at(SMALL._replace(edition=edition)))
    yield from held([4], *all_wrong_at(SMALL._replace(h=11, edition=3)))
    yield from held([3], *all_wrong_at(SMALL._replace(s=7, h=11, edition=3)))


def second_edition_cases():
    """The document's trial values for orders, and the window, in edition 2. Only the digest is
    another: keys, roots and values are those of edition 1."""
    yield from document_orders(2)
    yield from shown_values(WIDE._replace(edition=2), 1, 0)
    yield leaf_key_case(GATE._replace(edition=2), 1023)
    yield root_case(FLAT._replace(edition=2))
    yield from window_cases(2, 40, WINDOWS[40][::3])


def crossed_cases():
    """An order of one edition is judged by a cabinet of the other by that one's digest alone, which
    leads to another root. Its own edition takes it. Where a leaf has two bytes that differ, their
    order in the digest shows; numbers have 16 bits there."""
    for p, leaf in [(TALL, 5), (Profile(10, 4, 15, 10, 1), 0x0203)]:
        both = [p._replace(edition=edition) for edition in EDITIONS]
        for own, other in (both, both[::-1]):
            change = f", edition {own.edition}'s order"
            yield from held([15], check_case(cabinet_of(other), signed(own, leaf), change))
        key, size = SigningKey(both[1], SEED, SECRET, leaf, 0), signature_length(p)
        check = check_case(cabinet_of(both[1]), signed(both[1], leaf), f", leaf {leaf}")
        yield from held([0], orders_case(key, size), check)


def edition_sheet_cases():
    """Frame 01 ends with 02 in edition 2, and with nothing in edition 1."""
    size = signature_length(SHEET)
    sheet = right_sheet(SHEET, message(size), TEXT)
    lasts = ["", "00", "01", "02", "03", "82", "0202", "0200", "0002", "2"]
    for edition, last in itertools.product(EDITIONS, lasts):
        p, change = SHEET._replace(edition=edition), f", frame 01 ends with {last or 'no byte'}"
        shown = sheet_case(p, editions.with_last(p, sheet, last), size, 200, change)
        yield from held([17 if editions.line_to(edition, last) else 0], shown)
    yield long_sheet(GATE._replace(edition=2))


GROUPS = [hash_cases, code_cases, key_cases, order_cases, sheet_cases, bits_cases]
GROUPS += [any_edition_cases, second_edition_cases, crossed_cases, edition_sheet_cases]


def main():
    parser = argparse.ArgumentParser(description="Writes what the program trial reads and writes.")
    parser.add_argument("--check", action="store_true", help="compare, write nothing")
    parser.add_argument("folder", type=Path)
    arguments = parser.parse_args()
    cases = [made for group in GROUPS for made in group()]
    stdin = word(len(cases)) + b"".join(given for given, _ in cases)
    stdout = "".join(f"{line}\n" for _, line in cases).encode("ascii")
    for name, content in [("stdin", stdin), ("stdout", stdout)]:
        path = arguments.folder / name
        if not arguments.check:
            path.write_bytes(content)
        elif path.read_bytes() != content:
            fail(f"{path} is not what is to be written")


if __name__ == "__main__":
    main()
