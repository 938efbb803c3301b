"""Holds to the library what document 02 says in point 13 of profiles whose s is the whole part of
l (w - 1) / 2: no list of distinct rows of l lengths from 0 to w - 1, in which no row is at most
another at each place, has more members than the count. For the gate profile the count is at least
2^128, so an order's number has 128 bits there and 19 never occurs.

    python3 tests/interface/largest_code.py [--archive FILE]

At the smallest shapes every list is tried, by the words of the sentence alone; that it holds at all
others is proved. For all l and w within the limits that have few rows, the library must give the
count and the rows with that sum, of which none is at most another. It never answers 19 to an order
at the gate profile, whatever else may refuse it.
"""

import itertools
import random
import tempfile
from operator import le

from paths import fail, say

import shapes
from archived import archive_of, archive_parser, shared_object
from calls import load
from cases import caused, edge
from causes import CUTS, subsets
from inputs import Inputs
from operations import CAUSES, ORDERS, content
from signatures import EDITIONS, GATE, Profile, count_cause
from zarosnik import number_bits, row_of, ways

LIMITS = list(itertools.product(range(1, 41), range(2, 17)))
# At a shape with so many rows at most the library's are asked for, and every list is tried.
MOST_ROWS = 10000
MOST_ROWS_TRIED = 32
# By l and w, how many lists there are with the empty one, as others have found: Dedekind's numbers,
# and for l = w = 3 the plane partitions in a box.
LISTS = {(1, 2): 3, (2, 2): 6, (3, 2): 20, (4, 2): 168, (5, 2): 7581, (3, 3): 980}
GATE_COUNT = 1287155674008337910149577743336952677632
# How often each set of causes is laid at the gate profile.
ROUNDS = 3


def hold(holds, what):
    if not holds:
        fail(what)


def middle(l, w):
    """The sentence's s."""
    return l * (w - 1) // 2


def apart(a, b):
    """Neither row is at most the other at each place."""
    return not all(map(le, a, b)) and not all(map(le, b, a))


def every_list(rows):
    """How many lists there are, and the most rows of one: each row is left out, or taken without
    those that it is at most or that are at most it."""
    if not rows:
        return 1, 0
    row, *rest = rows
    without, most = every_list(rest)
    taken, more = every_list([other for other in rest if apart(row, other)])
    return without + taken, max(most, 1 + more)


def hold_counts():
    """Within the limits no sum has more rows than the middle; the gate profile's is the middle. How
    many shapes are tried by every list."""
    tried = 0
    for l, w in LIMITS:
        at, count = f"l = {l}, w = {w}", ways(w, l, middle(l, w))
        hold(count == max(ways(w, l, t) for t in range(l * (w - 1) + 1)), f"{at}: a larger count")
        if w**l <= MOST_ROWS_TRIED:
            tried += 1
            lists = every_list(list(itertools.product(range(w), repeat=l)))
            hold(lists == (LISTS.get((l, w), lists[0]), count), f"{at}: {lists} by every list")
    hold(GATE[:3] == (34, 16, 255) == (34, 16, middle(34, 16)), "another gate profile")
    hold(ways(16, 34, 255) == GATE_COUNT and 2**128 <= GATE_COUNT < 2**130, "the gate's count")
    hold(number_bits(GATE_COUNT) == 128 and count_cause(GATE) == 0, "19 at the gate profile")
    return tried


def made(library, call):
    """Makes a call, which must answer and leave what it is to."""
    wrong = call.make(library)
    hold(not wrong, "\n".join([str(call), *wrong]))
    return 1


def ask_counts(library, pick):
    """The library counts the rows of each shape with the middle sum, has one for each number below
    that, and no two of them stand so to each other."""
    calls = 0
    for l, w in [(l, w) for l, w in LIMITS if w**l <= MOST_ROWS] + [GATE[:2]]:
        p, few = Profile(l, w, middle(l, w), 0, 1), w**l <= MOST_ROWS
        rows = itertools.product(range(w), repeat=l) if few else []
        rows = [bytes(row) for row in rows if sum(row) == p.s]
        call = Inputs(pick, "count", profile=p).count()
        call.memory["number"].leave(content("number", len(rows) if few else GATE_COUNT))
        calls += made(library, call)
        pairs = itertools.combinations(rows, 2)
        hold(all(apart(a, b) for a, b in pairs), f"{p}: a row is at most another")
        for number, row in enumerate([*rows, None] if few else []):
            hold(row is None or row_of(*p[:3], number) == row, f"{p}: another row of {number}")
            inputs = Inputs(pick, "unrank", profile=p)
            given = {"number": number, "table": inputs.table(), "row": inputs.lent("row", l)}
            calls += made(library, caused("unrank", [] if row else [7], inputs.call(p, **given)))
    return calls


def ask_orders(library, pick):
    """Signs and checks at the gate's l, w and s, in turn in either edition, with every set laid of
    the causes that can hold there: the first of them is told and never 19, and with none laid the
    order is granted. Sign hashes its whole tree then, so but for once that is a low one: its height
    has no part in 19. That 19 would be seen, two shapes show that have 255 rows."""
    calls = 0
    for turn, operation in itertools.product(range(ROUNDS), ORDERS):
        causes = [cause for cause in CAUSES[operation] if cause not in CUTS and cause != 19]
        for laid in [(), *subsets(causes, len(causes))]:
            low = turn > 0 and operation == "sign" and not laid
            p = GATE._replace(h=turn if low else GATE.h, edition=EDITIONS[turn % 2])
            inputs = Inputs(pick, operation, laid, profile=p)
            calls += made(library, caused(operation, laid, getattr(inputs, operation)()))
    for operation, shape in itertools.product(ORDERS, shapes.nearly_signing()):
        for call in edge(operation, shape, pick):
            hold(call.outcome == 19, f"drawn otherwise: {call}")
            made(library, call)
    return calls


def main():
    archive = archive_of(archive_parser("Holds the largest lists to the count.").parse_args())
    tried = hold_counts()
    with tempfile.TemporaryDirectory() as folder:
        library, pick = load(shared_object(archive, folder)), random.Random("largest code")
        counts, orders = ask_counts(library, pick), ask_orders(library, pick)
    say(f"at {tried} shapes every list tried; at {len(LIMITS)} no sum has more rows")
    say(f"{counts} calls of Count and Spread; {orders} orders at the gate profile, none 19")


if __name__ == "__main__":
    main()
