"""Sheets to write: the kinds of calls that must come up, each with its answer, and a draw of each:
every length of a text from 0 to 201 bytes, in both editions, with slices of each length that
decides; leaves at both ends of a tree and past it, of which none is refused; and sheets that were
written, for every length read again.
"""

import itertools

from editions import MOST_WORD
from memory import Memory
from sheets import sheet_length
from signatures import EDITIONS, signature_length

OPERATIONS = ["write_sheet", "read_sheet"]
TEXTS = range(202)
RIGHT_TEXTS = TEXTS[1:-1]
# By how many bytes the signature and the sheet's slice are longer than they must be, and the causes
# of refusal where the text is right.
SLICES = {
    "slices just long enough": (0, 0, []),
    "a byte more for the sheet": (0, 1, []),
    "a byte too few for the sheet": (0, -1, [6]),
    "a signature with a byte less": (-1, 0, [13]),
    "a signature with a byte more": (1, 0, [13]),
}
# By the height of the tree.
LEAVES = {
    "the first leaf": lambda h: 0,
    "the last leaf": lambda h: 2**h - 1,
    "the first number that is no leaf": lambda h: 2**h,
    "the largest number for a leaf": lambda h: MOST_WORD,
}


def causes_of(size, slices):
    """In the document's order."""
    return ([] if size in RIGHT_TEXTS else [16]) + SLICES[slices][2]


def answer_to(size, slices):
    return next(iter(causes_of(size, slices)), 0)


def kinds_of(call):
    p, given = call.profile(), call.given
    if call.stated == ("written",):
        yield "a written sheet is read", (p.edition, len(given["message"])), 0
    if call.operation == "write_sheet" and call.outcome in (0, 16, 13, 6):
        signature, text, sheet = (call.memory[n].length for n in ("signature", "message", "sheet"))
        longer = signature - signature_length(p), sheet - sheet_length(p, text)
        for slices in (name for name, (*by, _) in SLICES.items() if longer == tuple(by)):
            yield "write_sheet", (p.edition, text, slices), call.outcome
        leaf = int.from_bytes(given["signature"][:4], "big")
        for name in (name for name, number in LEAVES.items() if number(p.h) == leaf):
            yield "write_sheet", (p.edition, name), call.outcome


def wanted_with(texts):
    for found in itertools.product(EDITIONS, texts, SLICES):
        yield "write_sheet", found, answer_to(*found[1:])
    yield from (("write_sheet", found, 0) for found in itertools.product(EDITIONS, LEAVES))


def wanted():
    yield from wanted_with(TEXTS)
    read = itertools.product(EDITIONS, RIGHT_TEXTS)
    yield from (("a written sheet is read", found, 0) for found in read)


def told(kind):
    what, found, answer = kind
    return f"{what}, answer {answer}: edition, text length, slices or leaf {found}"


def any_leaf(pick, h):
    return pick.choice([*(number(h) for number in LEAVES.values()), pick.getrandbits(32)])


def drawn(pick, p, size, slices):
    """A signature, a text and a slice for the sheet. Behind a signature that is too short stands
    what was cut off."""
    more, room, _ = SLICES[slices]
    length = signature_length(p)
    signature = any_leaf(pick, p.h).to_bytes(4, "big") + pick.randbytes(length - 3)
    end = length + more
    sheet = Memory(pick.randbytes(sheet_length(p, size) + room), spare=max(0, room))
    signature = Memory(signature[:end], behind=signature[end:])
    return {"signature": signature, "message": pick.randbytes(size), "sheet": sheet}
