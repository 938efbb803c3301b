"""The worked values of docs/INTERFACE.md: the small table of counts, a digest's number at several
counts, the table of the window, a stored key and the worked order in both editions, from the
implementation in this folder that is independent of the library.

    python3 tests/pages/worked_order.py           compares the page with these values
    python3 tests/pages/worked_order.py --print   prints them, as they must stand in the page
"""

import argparse
import hashlib
import itertools
import re
import sys

from paths import ROOT, say

from keys import right_frame
from sheets import right_sheet
from signatures import EDITIONS, LEAST_COUNT, Profile, Verifier, address, chain_start, chain_value
from signatures import check, message_number, node, order_digest, reserved_key, root_of, sign
from signatures import signature_length
from vector_calls import GATE_SHAPE, ORDER, SECRET, SEED, R, hexed, number_hex
from zarosnik import first_bits, number_bits, row_of, table_length, ways

PAGE = ROOT / "docs" / "INTERFACE.md"
# The gate's shape, at which numbers have 128 bits, under the lowest tree that shows a node with an
# index other than 0. The path of leaf 2 has a right sibling, then a left one.
WORKED = Profile(*GATE_SHAPE, 2, 1)
SECOND = WORKED._replace(edition=2)
LEAF = 2
CHAIN = 5
# The search for a length is shown at so many places.
PLACES = 3
COUNTS = (3, 3, 3)
# The worked order's digest gives a number at each of these: the largest count that is refused, the
# least that is not, one with a bit more, one with a bit less than 128, and the gate's.
BITS = [(5, 5, 7), (7, 3, 5), (6, 4, 9), (34, 16, 204), GATE_SHAPE]
# The window: a cabinet's highest leaf and marks, where they are not those that the row above left;
# an order's leaf; and what it shows. The orders are signed at a profile whose tree has leaves enough.
WINDOW = "The window"
WINDOW_PROFILE = Profile(7, 3, 5, 7, 1)
WINDOW_ROWS = [
    ((0, 0), 5, "fresh: any leaf is taken"),
    (None, 6, "1 above"),
    (None, 37, "31 above: mark 0 moves to 31, and mark 1 falls away"),
    (None, 6, "31 below, accepted before"),
    (None, 5, "32 below: passed, though its mark fell away"),
    (None, 30, "7 below, not accepted before"),
    (None, 30, "replay of that order"),
    (None, 37, "replay of the highest"),
    (None, 69, "32 above: all marks fall away"),
    (None, 38, "31 below, not accepted before: the lowest leaf still taken"),
    (None, 36, "33 below: passed, though never accepted"),
    ((69, 0), 3, "no mark set: any leaf is taken, and is the highest"),
    ((3, 1 << 31), 2, "mark 31 names no leaf and is a mark; mark 0 is not set"),
]
WINDOW_HEAD = ["| Highest, marks | Leaf | Check | Highest, marks after | Shows |"]
WINDOW_HEAD += ["|---|--:|--:|---|---|"]
# Bytes of a long value that stand in one line.
LINE_BYTES = 32


def long(label, data):
    """A value over several lines."""
    lines = [hexed(data[at : at + LINE_BYTES]) for at in range(0, len(data), LINE_BYTES)]
    return [f"{label} =", *(f"  {line}" for line in lines)]


def counts_block():
    l, w, s = COUNTS
    for i in range(l + 1):
        counts = ", ".join(str(ways(w, i, t)) for t in range(s + 1))
        yield f"D({i}, 0) to D({i}, {s}) = {counts}"
    for number in range(ways(w, l, s)):
        yield f"row of {number} = {', '.join(map(str, row_of(l, w, s, number)))}"


def key_block():
    yield ", ".join(f"{name} = {number}" for name, number in WORKED._asdict().items())
    yield from [f"public seed = {hexed(SEED)}", f"secret seed = {hexed(SECRET)}"]
    yield f"next leaf = {LEAF}"


def tree_block():
    p = WORKED
    for height in range(p.h + 1):
        for index in range(2 ** (p.h - height)):
            value = hexed(node(p.l, p.w, SEED, SECRET, height, index))
            yield f"node at height {height}, index {index} = {value}"


def bits_block(root):
    digest = order_digest(WORKED, R, SEED, root, LEAF, ORDER)
    yield from long("digest", digest)
    for l, w, s in BITS:
        count = ways(w, l, s)
        bits, shape = number_bits(count), f"l = {l}, w = {w}, s = {s}: count {count}"
        number = f"b = {bits}, message number {first_bits(digest, bits):X}"
        yield f"{shape}, {number if count >= LEAST_COUNT else 'refused by 19'}"


def state(cabinet):
    return f"{cabinet.highest}, 0x{cabinet.marks:08X}"


def signed(p, leaf=LEAF):
    work, out = [0] * table_length(p.l, p.s), bytes(signature_length(p))
    return sign(reserved_key(p, SEED, SECRET, leaf), R, ORDER, work, out)[2]


def checked(cabinet, signature):
    """The outcome, the cabinet, the steps."""
    p = cabinet.profile
    return check(cabinet, ORDER, signature, [0] * table_length(p.l, p.s))[:3]


def window_table():
    """A row's order is checked by the cabinet as a whole, so that no cause but 14 refuses it."""
    p = WINDOW_PROFILE
    yield from WINDOW_HEAD
    after = Verifier(p, SEED, root_of(p, SEED, SECRET), 0, 0)
    for words, leaf, shows in WINDOW_ROWS:
        before = after if words is None else after._replace(highest=words[0], marks=words[1])
        outcome, after, _ = checked(before, signed(p, leaf))
        yield f"| {state(before)} | {leaf} | {outcome} | {state(after)} | {shows} |"


def worked_number(p, root):
    return message_number(p, R, SEED, root, LEAF, ORDER)


def number_lines(p, root, label, message):
    """What is hashed is joined here, and the number is that of the profile's edition."""
    yield from long(label, message)
    yield from long("digest", hashlib.sha256(message).digest())
    yield f"message number = {number_hex(worked_number(p, root))}"


def digest_block(root):
    yield f"R = {hexed(R)}"
    yield f"order text = {ORDER.decode()}"
    joined = R + SEED + root + ORDER
    yield from number_lines(WORKED, root, "R, public seed, root, order text", joined)


def row_block(number):
    """The search at the first places, then the whole row."""
    l, w, s = WORKED[:3]
    row = row_of(l, w, s, number)
    yield f"count, D({l}, {s}) = {number_hex(ways(w, l, s))}"
    for place in range(PLACES):
        for length in range(row[place] + 1):
            share = ways(w, l - 1 - place, s - length)
            yield f"place {place}, D({l - 1 - place}, {s - length}) = {number_hex(share)}"
            number -= share if length < row[place] else 0
        s -= row[place]
        yield f"length {row[place]}, number left = {number_hex(number)}, sum left = {s}"
    yield f"row = {', '.join(map(str, row))}"


def chain_block():
    first, prefix = chain_start(SEED, SECRET, LEAF, CHAIN), SEED + bytes(48)
    start, step, last = address(5, LEAF, CHAIN, 0), address(0, LEAF, CHAIN, 0), WORKED.w - 2
    yield f"address of the start = {hexed(start)}"
    yield from long("hashed for the start", prefix + start + SECRET)
    yield f"address of the step from height 0 = {hexed(step)}"
    yield from long("hashed for the step from height 0", prefix + step + first)
    yield f"address of the step from height {last} = {hexed(address(0, LEAF, CHAIN, last))}"
    for height in range(WORKED.w):
        yield f"height {height} = {hexed(chain_value(SEED, SECRET, LEAF, CHAIN, height))}"


def leaf_block():
    p = WORKED
    tops = [chain_value(SEED, SECRET, LEAF, chain, p.w - 1) for chain in range(p.l)]
    yield from long(f"tops of the chains 0 to {p.l - 1}", b"".join(tops))
    yield f"address of the leaf key = {hexed(address(1, LEAF, 0, 0))}"
    yield f"address of the node at height 1, index 1 = {hexed(address(2, 0, 1, 1))}"
    yield f"address of the root = {hexed(address(2, 0, 2, 0))}"


def verdict_block(root, signature):
    outcome, after, steps = checked(Verifier(WORKED, SEED, root, 0, 0), signature)
    yield from [f"verdict = {outcome}", f"chain steps = {steps}"]
    yield from [f"highest leaf = {after.highest}", f"marks = 0x{after.marks:08X}"]


def second_block(root):
    """The order in edition 2: what differs, and what a cabinet of each edition says to it."""
    p, signature = SECOND, signed(SECOND)
    joined = R + SEED + root + LEAF.to_bytes(4, "big") + ORDER
    yield from number_lines(p, root, "R, public seed, root, leaf, order text", joined)
    yield f"row = {', '.join(map(str, row_of(p.l, p.w, p.s, worked_number(p, root))))}"
    yield f"line 2 of the sheet = {right_sheet(p, signature, ORDER).decode().splitlines()[1]}"
    for edition in EDITIONS:
        cabinet = Verifier(p._replace(edition=edition), SEED, root, 0, 0)
        outcome, _, steps = checked(cabinet, signature)
        yield f"cabinet of edition {edition}: verdict = {outcome}, chain steps = {steps}"


def stored_block():
    """The key in both editions, when its leaf is reserved."""
    for p in (WORKED, SECOND):
        yield right_frame(reserved_key(p, SEED, SECRET, LEAF)).decode().rstrip("\n")


def blocks():
    """The page's blocks in order: a section's heading and the lines."""
    root = root_of(WORKED, SEED, SECRET)
    number, signature = worked_number(WORKED, root), signed(WORKED)
    yield "Counts and rows", list(counts_block())
    yield "Digest and message number", list(bits_block(root))
    yield "Stored key", list(stored_block())
    yield WINDOW, list(window_table())
    for block in [
        key_block(),
        tree_block(),
        digest_block(root),
        row_block(number),
        chain_block(),
        leaf_block(),
        long("signature", signature),
        right_sheet(WORKED, signature, ORDER).decode().splitlines(),
        verdict_block(root, signature),
        second_block(root),
    ]:
        yield "A worked order", list(block)


def page_blocks(text):
    """The blocks fenced as `values` under the headings above, and the table of the window."""
    wanted = {heading for heading, _ in blocks()}
    for part in re.split(r"^#+ ", text, flags=re.MULTILINE):
        heading, _, body = part.partition("\n")
        if heading == WINDOW:
            yield heading, [line for line in body.splitlines() if line.startswith("|")]
        elif heading in wanted:
            for block in re.findall(r"^```values\n(.*?)^```$", body, re.MULTILINE | re.DOTALL):
                yield heading, block.splitlines()


def differences(text):
    """In lines: where the page's blocks are not those above."""
    pairs = itertools.zip_longest(page_blocks(text), blocks(), fillvalue=("nothing", []))
    for (heading, found), (expected_heading, expected) in pairs:
        if heading != expected_heading:
            yield f"a block under {heading}, expected under {expected_heading}"
        for line, right in itertools.zip_longest(found, expected, fillvalue=""):
            if line != right:
                yield f"{heading}: {line!r}, expected {right!r}"


def main():
    parser = argparse.ArgumentParser(description="Compares the page's worked values.")
    parser.add_argument("--print", action="store_true", help="print the blocks")
    if parser.parse_args().print:
        for heading, lines in blocks():
            fenced = lines if heading == WINDOW else ["```values", *lines, "```"]
            print("\n".join([f"[{heading}]", *fenced]))
        return
    wrong = list(differences(PAGE.read_text(encoding="utf-8")))
    for line in wrong:
        say(line)
    say(f"{len(list(blocks()))} blocks, {len(wrong)} differences")
    sys.exit(1 if wrong else 0)


if __name__ == "__main__":
    main()
