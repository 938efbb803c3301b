"""The operations of the C interface in one table: the parameters of each, how they are lent, and
the causes of its refusals in the document's order. Every test of the C interface goes by it.

A name alone is a number, passed by value. `&name` points to what is only read, `*name` to an
answer, which every call writes, `~name` to a state, which a call is given and hands back. Behind a
slice, `name[CAUSE]`, stands its length; this is the cause of refusal where it is wrong: where one
to read is too long, or not just as long as it must be, and where one to write is too short.
"""

from array import array
from collections import namedtuple
from functools import cache

from zarosnik import WORDS, number_words

PROFILE, SEEDS = "l w s h edition", "&public_seed &secret_seed"
PROFILE_CAUSES = [1, 2, 3, 4, 22]
# Read sheet refuses by 6 for two slices, and the text's is told apart here.
TEXT_SLICE = -6
TABLE = {
    "hash": ("&data[18] *digest", [18]),
    "count": ("l w s *table[5] *number", [1, 2, 3, 5]),
    "unrank": ("l w s &number *table[5] *row[6]", [1, 2, 3, 5, 6, 7]),
    "rank": ("l w s &row[8] *table[5] *number", [1, 2, 3, 5, 8, 9, 10]),
    "compare": ("&first &second *order *looked", []),
    "leaf_key": (f"{PROFILE} {SEEDS} leaf *key", [*PROFILE_CAUSES, 11]),
    "root": (f"{PROFILE} {SEEDS} *root", PROFILE_CAUSES),
    "one_time_sign": (
        f"{PROFILE} {SEEDS} leaf &number *table[5] *values[6]",
        [*PROFILE_CAUSES, 5, 6, 11, 7],
    ),
    "one_time_recover": (
        f"{PROFILE} &public_seed leaf &number &values[13] *table[5] *key *steps",
        [*PROFILE_CAUSES, 5, 13, 11, 7],
    ),
    "reserve": (f"{PROFILE} ~next_leaf ~mark", [*PROFILE_CAUSES, 21, 12]),
    "sign": (
        f"{PROFILE} {SEEDS} next_leaf ~mark &r &message[16] *table[5] *signature[6]",
        [*PROFILE_CAUSES, 5, 16, 6, 20, 19],
    ),
    "verify": (
        f"{PROFILE} &public_seed &root ~highest_leaf ~marks"
        " &message[16] &signature[13] *table[5] *steps",
        [*PROFILE_CAUSES, 5, 16, 13, 11, 14, 19, 15],
    ),
    "read_sheet": (
        f"{PROFILE} &sheet[17] *signature[6] *message[{TEXT_SLICE}] *message_written *line",
        [*PROFILE_CAUSES, 17, 6, TEXT_SLICE],
    ),
    "write_sheet": (
        f"{PROFILE} &signature[13] &message[16] *sheet[6] *sheet_written",
        [*PROFILE_CAUSES, 16, 13, 6],
    ),
    "read_key": ("&frame[17] *profile *public_seed *secret_seed *next_leaf *mark *line", [17]),
    "write_key": (
        f"{PROFILE} {SEEDS} next_leaf mark *frame[6] *frame_written",
        [*PROFILE_CAUSES, 6],
    ),
}

# What stands where a pointer points to: five words of a number, words, or a size of eight bytes.
# All else is bytes, of which a slice has its length, a digest 32 and any other 16.
NUMBERS = ("number", "first", "second")
SINGLE_WORDS = ("next_leaf", "mark", "highest_leaf", "marks", "order", "looked", "steps", "line")
LENGTHS = {"digest": 32, "profile": 5} | dict.fromkeys(NUMBERS, WORDS)
MOST_HASHED = 65535


class Parameter(namedtuple("Parameter", "name kind cause")):
    """A kind is one of the signs above, or none."""

    by_value = property(lambda self: self.kind == "")
    read_only = property(lambda self: self.kind == "&")
    has_length = property(lambda self: self.cause is not None)


@cache
def parameters(operation):
    found = []
    for told in TABLE[operation][0].split():
        name, _, cause = told.strip("&*~]").partition("[")
        kind = told[0] if told[0] in "&*~" else ""
        found.append(Parameter(name, kind, int(cause) if cause else None))
    return found


def named(operation, kinds, slices):
    """The names of a call's parameters of these kinds, with their causes: slices, or others."""
    given = [p for p in parameters(operation) if p.kind in kinds.split()]
    return {p.name: p.cause for p in given if p.has_length == slices}


CAUSES = {operation: causes for operation, (_, causes) in TABLE.items()}
# The slices that a call may write, each with its cause; and its states.
LENT = {operation: named(operation, "*", True) for operation in TABLE}
STATES = {operation: list(named(operation, "~", False)) for operation in TABLE}
# Operations that a profile's edition is for; those with a state; those on orders.
EDITED = [operation for operation, causes in CAUSES.items() if 22 in causes]
WITH_STATE = [operation for operation, states in STATES.items() if states]
ORDERS = [operation for operation, causes in CAUSES.items() if 19 in causes]


def numbers_told(operation):
    """The numbers of its refusals in order."""
    return list(dict.fromkeys(map(abs, CAUSES[operation])))


def unit_of(name):
    """In bytes."""
    if name.endswith("_written"):
        return 8
    return 4 if name in (*NUMBERS, *SINGLE_WORDS, "table", "profile") else 1


def length_of(name):
    """In units, of what has no length of its own."""
    return LENGTHS.get(name, 16 if unit_of(name) == 1 else 1)


def content(name, value):
    """A value as it stands in memory: a number or a word, a list of words, or bytes."""
    if isinstance(value, bytes):
        return value
    words = number_words(value) if name in NUMBERS else value
    words = words if isinstance(words, list) else [words]
    return array("Q" if unit_of(name) == 8 else "I", words).tobytes()


def value_in(name, data):
    """The same the other way."""
    if unit_of(name) == 1:
        return data
    words = list(array("Q" if unit_of(name) == 8 else "I", data))
    if name in NUMBERS:
        return sum(word << 32 * place for place, word in enumerate(words))
    return words if name in ("table", "profile") else words[0]
