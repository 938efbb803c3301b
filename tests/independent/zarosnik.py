"""Count, Spread, Gather and Compare on whole numbers, and the bits of a digest that make an order's
number: an implementation of the scope document that is independent of the library.

Work slices are lists of 32-bit words, rows are bytes. No slice is changed: every function answers
with the number of its refusal, or 0, its value, and the slices as the call leaves them.
"""

import itertools
from functools import cache, lru_cache

WORDS = 5
# An order's number has at most so many bits.
MOST_BITS = 128
# How the first of two numbers stands to the second.
LESS, EQUAL, GREATER = range(3)


@cache
def ways(w, i, t):
    """D(i, t): how many rows of i lengths below w have the sum t."""
    if i == 0:
        return 1 if t == 0 else 0
    return sum(ways(w, i - 1, t - j) for j in range(w) if j <= t)


def number_words(n):
    """A number in five words, least word first."""
    return [n >> 32 * k & 0xFFFFFFFF for k in range(WORDS)]


@lru_cache(maxsize=64)
def table(l, w, s):
    """D(i, t) for i up to l and t up to s, row i after row i - 1."""
    cells = [ways(w, i, t) for i in range(l + 1) for t in range(s + 1)]
    return [word for n in cells for word in number_words(n)]


def table_length(l, s):
    return WORDS * (l + 1) * (s + 1)


def filled(l, w, s, work):
    """The work slice with the table; the words behind it stay."""
    return table(l, w, s) + work[table_length(l, s) :]


def shape_causes(l, w, s):
    """The profile checks without the height, which these operations never look at."""
    return [
        (1, lambda: not 1 <= l <= 40),
        (2, lambda: not 2 <= w <= 16),
        (3, lambda: not 0 <= s <= l * (w - 1)),
    ]


def first_cause(causes):
    """The number of the first cause that holds, or 0. No later one is looked at."""
    return next((number for number, holds in causes if holds()), 0)


def work_cause(l, s, work):
    return [(5, lambda: len(work) < table_length(l, s))]


def count(l, w, s, work):
    """The outcome, the count, the work slice."""
    refused = first_cause(shape_causes(l, w, s) + work_cause(l, s, work))
    if refused:
        return refused, 0, work
    return 0, ways(w, l, s), filled(l, w, s, work)


def row_of(l, w, s, number):
    """The lengths of a number below the count, each at the first share that holds the number."""
    lengths = []
    for place in range(l):
        length = 0
        while number >= ways(w, l - 1 - place, s - length):
            number -= ways(w, l - 1 - place, s - length)
            length += 1
        lengths.append(length)
        s -= length
    return bytes(lengths)


def spread(l, w, s, number, work, row):
    """The outcome, the row slice, the work slice."""
    causes = shape_causes(l, w, s) + work_cause(l, s, work)
    refused = first_cause(causes + [(6, lambda: len(row) < l)])
    if refused:
        return refused, row, work
    if number >= ways(w, l, s):
        return 7, row, filled(l, w, s, work)
    return 0, row_of(l, w, s, number) + row[l:], filled(l, w, s, work)


def number_of(w, s, row):
    """How many rows of the same shape stand before this one in dictionary order: at each place,
    those that agree up to there and have a smaller length."""
    before = 0
    for place, length in enumerate(row):
        left = s - sum(row[:place])
        before += sum(ways(w, len(row) - 1 - place, left - j) for j in range(length))
    return before


def gather(l, w, s, row, work):
    """The outcome, the number, the work slice."""
    causes = shape_causes(l, w, s) + work_cause(l, s, work)
    refused = first_cause(
        causes
        + [
            (8, lambda: len(row) != l),
            (9, lambda: any(length > w - 1 for length in row)),
            (10, lambda: sum(row) != s),
        ]
    )
    if refused:
        return refused, 0, work
    return 0, number_of(w, s, row), filled(l, w, s, work)


def compare(first, second):
    """The outcome, the order of two numbers, and the word pairs looked at: 5 less the place of the
    highest word that differs, where the highest bit that differs stands, or 5 where none does."""
    order = LESS if first < second else GREATER if first > second else EQUAL
    differing = (first ^ second).bit_length()
    return 0, order, WORDS - (differing - 1) // 32 if differing else WORDS


def compared_by_words(first, second):
    """The same by the words alone, highest first, the pairs counted one by one."""
    pairs = list(zip(number_words(first), number_words(second)))[::-1]
    alike = sum(1 for _ in itertools.takewhile(lambda pair: pair[0] == pair[1], pairs))
    if alike == WORDS:
        return 0, EQUAL, alike
    return 0, LESS if pairs[alike][0] < pairs[alike][1] else GREATER, alike + 1


def wrong_comparison():
    """Two numbers with words at their ends for which these two differ, or None."""
    words = itertools.product((0, 1, 0xFFFFFFFF), repeat=WORDS)
    numbers = [sum(word << 32 * k for k, word in enumerate(listed)) for listed in words]
    for first, second in itertools.product(numbers, repeat=2):
        if compare(first, second) != compared_by_words(first, second):
            return first, second
    return None


def number_bits(count):
    """b: the largest value up to 128 with 2^b not above the count. Of a count of 0, which no shape
    has, there is none, and it is 0 here."""
    return max((b for b in range(MOST_BITS + 1) if 2**b <= count), default=0)


def first_bits(digest, bits):
    """The first bits of a digest as a number: the digest as one number, without the other bits."""
    return int.from_bytes(digest, "big") >> 8 * len(digest) - bits


def number_bits_by_digits(count):
    """The same by the count's binary digits: all but the first, and no more than 128."""
    return len(f"{count:b}"[1:][:MOST_BITS])


def first_bits_by_digits(digest, bits):
    """The same by the digest's binary digits, eight a byte, cut off behind the last one taken."""
    digits = "".join(format(byte, "08b") for byte in digest)
    return int("0" + digits[:bits], 2)


def around_powers(exponents):
    """2^k - 1, 2^k and 2^k + 1 for each k of these."""
    return [2**k + by for k in exponents for by in (-1, 0, 1)]


def wrong_bits():
    """A count, or a digest and bits, for which these two differ, or None. The digests have every
    bit set, bits of both kinds, and each bit alone."""
    for count in [*range(2000), *around_powers(range(160)), 2**160 - 1]:
        if number_bits(count) != number_bits_by_digits(count):
            return count
    digests = [b"\xff" * 32, bytes(range(0x51, 0x71))]
    digests += [(1 << at).to_bytes(32, "big") for at in range(256)]
    for digest, bits in itertools.product(digests, range(MOST_BITS + 1)):
        if first_bits(digest, bits) != first_bits_by_digits(digest, bits):
            return digest, bits
    return None


def disagreement():
    """A shape at which counts, rows or numbers differ from a plain list of all rows, or None."""
    for l, w in itertools.product(range(1, 6), range(2, 5)):
        listed = [bytes(row) for row in itertools.product(range(w), repeat=l)]
        for s in range(l * (w - 1) + 1):
            rows = [row for row in listed if sum(row) == s]
            if (
                ways(w, l, s) != len(rows)
                or [row_of(l, w, s, n) for n in range(len(rows))] != rows
                or [number_of(w, s, row) for row in rows] != list(range(len(rows)))
            ):
                return l, w, s
    return None
