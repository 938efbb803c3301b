"""Shapes (l, w, s) within the limits by their counts: what orders are drawn from, by the bits of an
order's number, and the shapes at which orders must be signed and checked. Besides, leaves are
reserved, sign and are taken under trees of each height, and orders of earlier days are taken where
numbers have 128 bits as then, and refused where they have fewer.

From 2^8 on no count is a power of two. So what must come up on both sides of each power is the
nearest count there is: the one above 2^b gives b bits, the one below a bit less, 255 is refused.
"""

import itertools
from bisect import bisect_left
from collections import defaultdict
from functools import cache

from operations import ORDERS, WITH_STATE
from signatures import LEAST_COUNT
from zarosnik import MOST_BITS, number_bits, ways

LEAST_BITS = number_bits(LEAST_COUNT)
HEIGHTS = range(11)
OPERATIONS = WITH_STATE


@cache
def by_count():
    """The shapes of each count, the counts rising."""
    found = defaultdict(list)
    for l, w in itertools.product(range(1, 41), range(2, 17)):
        for s in range(l * (w - 1) + 1):
            found[ways(w, l, s)].append((l, w, s))
    return dict(sorted(found.items()))


@cache
def by_bits():
    """The shapes that sign, by the bits of an order's number."""
    found = defaultdict(list)
    for count, shapes in by_count().items():
        found[number_bits(count) if count >= LEAST_COUNT else None] += shapes
    return dict(found)


def scant():
    """The shapes that sign nothing."""
    return by_bits()[None]


def nearly_signing():
    """Those of them with the largest count, which is 255."""
    return by_count()[neighbours(LEAST_BITS)[0]]


def neighbours(power):
    """The nearest count below 2^power, and the nearest that is not below."""
    counts = list(by_count())
    at = bisect_left(counts, 1 << power)
    return counts[at - 1], counts[at]


def shortest(count):
    """Of the shapes with this count the one that takes the fewest hashes, then the least table."""
    return min(by_count()[count], key=lambda shape: (shape[0] * shape[1], shape))


@cache
def edges():
    """On both sides of each power of two from 2^8 to 2^128 a shape of the nearest count; of 255
    every shape."""
    powers = range(LEAST_BITS, MOST_BITS + 1)
    counts = [count for power in powers for count in neighbours(power)]
    return nearly_signing() + [shortest(count) for count in counts[1:]]


def answer_at(shape):
    """What an order is answered with where nothing but the count may refuse it."""
    l, w, s = shape
    return 0 if ways(w, l, s) >= LEAST_COUNT else 19


def kinds_of(call):
    operation, outcome, p = call.operation, call.outcome, call.profile()
    if operation in ORDERS:
        yield operation, "shape", p[:3], outcome
    if outcome == 0:
        yield operation, "height", p.h, 0
    if call.stated == ("earlier",):
        yield operation, "an order of earlier days", None, outcome


def wanted_at(shapes):
    for operation, shape in itertools.product(ORDERS, shapes):
        yield operation, "shape", shape, answer_at(shape)


def wanted():
    yield from wanted_at(edges())
    yield from ((operation, "height", h, 0) for operation in WITH_STATE for h in HEIGHTS)
    yield from (("verify", "an order of earlier days", None, answer) for answer in (0, 15))


def told(kind):
    operation, what, at, answer = kind
    return f"{operation} answers {answer}: {what}" + ("" if at is None else f" {at}")
