"""Numbers to compare: the kinds of two numbers that must come up, and a draw in which all do. The
words below the highest that differs may be alike or have an order of their own, which counts for
nothing.
"""

import itertools

from zarosnik import EQUAL, GREATER, LESS, WORDS, compare

HIGHEST = 0xFFFFFFFF
EDGES = [0, 1, 0x7FFFFFFF, 0x80000000, HIGHEST - 1, HIGHEST]
OPERATIONS = ["compare"]


def kinds_of(call):
    """The order, the pairs looked at, and the order that the words below these have."""
    first, second = call.given["first"], call.given["second"]
    _, order, looked = compare(first, second)
    below = (1 << 32 * (WORDS - looked)) - 1
    yield order, looked, compare(first & below, second & below)[1]


def wanted():
    yield from ((order, WORDS, EQUAL) for order in (LESS, EQUAL, GREATER))
    yield from itertools.product((LESS, GREATER), range(1, WORDS), (LESS, EQUAL, GREATER))


def told(kind):
    return "compare comes to {} after {} pairs, with order {} in the words below".format(*kind)


def number_of_words(words):
    return sum(word << 32 * place for place, word in enumerate(words))


def other_word(pick, word):
    """One more, one less, with another sign or another bit, at an end, or any."""
    words = [word + 1, word - 1, word ^ 1 << 31, word ^ 1 << pick.randrange(32)]
    words += [*EDGES, pick.getrandbits(32)]
    return pick.choice([other for other in words if other != word and 0 <= other <= HIGHEST])


def drawn(pick):
    """Two numbers that are alike above a place, or everywhere. Below the place they are alike,
    other in every word, or as far apart as can be."""
    first = [pick.choice([*EDGES, pick.getrandbits(32)]) for _ in range(WORDS)]
    second = list(first)
    place = pick.choice([None, *range(WORDS)])
    if place is not None:
        second[place] = other_word(pick, first[place])
        below = pick.choice(["alike", "other", "apart"])
        if below == "other":
            second[:place] = [other_word(pick, word) for word in first[:place]]
        if below == "apart":
            first[:place], second[:place] = [0] * place, [HIGHEST] * place
    numbers = [number_of_words(first), number_of_words(second)]
    pick.shuffle(numbers)
    return numbers
