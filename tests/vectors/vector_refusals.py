"""Test vectors of refused calls: for each operation each cause alone, each together with all causes
that are tested after it, and profiles with a number out of its range.

A call is asked for with some causes, and all else in it is right. What the implementation then
answers is held to the first of them.
"""

from keys import frame_length, right_frame
from operations import LENT, MOST_HASHED, ORDERS, TABLE, numbers_told, parameters
from sheets import right_sheet, sheet_length
from signatures import GATE, Profile, SigningKey, Verifier, count_of, message_number
from signatures import reserved_key, root_of, signature_length, signature_of
from vector_calls import ORDER, SECRET, SEED, SEEDS, SMALL, R
from vector_calls import derived, flipped, hash_vector, held, vector
from zarosnik import row_of, table_length

PAST_WORD = 1 << 32
# The gate's shape under a low tree: it signs, which the small profile does not.
LOW_GATE = GATE._replace(h=1)

# Numbers of a profile that would be the gate's if they were cut to 8 bits, or s to 16.
CUT = {"l": 290, "w": 272, "s": 65791, "h": 266, "edition": 257}
# Numbers out of their range in the gate profile, and the cause of each.
WRONG = {
    "l": (1, [0, 41, CUT["l"], PAST_WORD - 1]),
    "w": (2, [0, 1, 17, CUT["w"], PAST_WORD - 1]),
    "s": (3, [511, CUT["s"], PAST_WORD - 1]),
    "h": (4, [11, CUT["h"], PAST_WORD - 1]),
    "edition": (22, [0, 3, CUT["edition"], CUT["edition"] + 1, PAST_WORD - 1]),
}
# No editions: the one that comes up with other causes, and others that do so with some.
NO_EDITION, NO_EDITIONS = 3, (0, PAST_WORD - 1)


def profile_with(p, causes, no_edition):
    l = 41 if 1 in causes else p.l
    w = 17 if 2 in causes else p.w
    s = l * (w - 1) + 1 if 3 in causes else p.s
    h = 11 if 4 in causes else p.h
    return Profile(l, w, s, h, no_edition if 22 in causes else p.edition)


def beyond(cause, causes, end, far):
    """The last number that is good. With the cause alone the next one, with others one far off."""
    if cause not in causes:
        return end - 1
    return end if causes == [cause] else far


def row_with(good, size, causes):
    row = row_of(*good[:3], count_of(good) - 1)
    if 9 in causes:
        # the sum stays
        row = bytes([good.w, good.s - good.w]) + bytes(good.l - 2)
    if 10 in causes:
        row = row[:-1] + bytes([row[-1] + 1])
    return (row + bytes(size))[: size + (8 in causes)]


def arguments_with(causes, operation, good, p, sized):
    """What a call is given that has just these causes, by name: the profile p, all else as it would
    be right for the good one, in sizes that go with a third. What may be written is given by its
    size."""
    end, root, text = 2**good.h, root_of(good, SEED, SECRET), b"" if 16 in causes else ORDER
    leaf, idle = beyond(11, causes, end, PAST_WORD - 2), 20 in causes and causes != [20]
    next_leaf, mark = {
        # the last leaf is the next, or none is
        "reserve": (end - (12 not in causes), 21 in causes),
        # the last leaf is reserved; it has no mark, or one that counts with no height
        "sign": (PAST_WORD - 1 if idle else end, idle or 20 not in causes),
    }.get(operation, (1, 1))
    if operation == "write_sheet":
        signature = derived("signature", signature_length(sized))
    else:
        # where the count is too small, what the rule would sign if it were not
        number = message_number(good, R, SEED, root, end - 1, ORDER)
        signed = signature_of(good, SEED, SECRET, end - 1, R, number)
        signature = leaf.to_bytes(4, "big") + signed[4:] + bytes(signature_length(sized))
    signature = signature[: signature_length(sized) - (13 in causes)]
    sheet = right_sheet(good, derived("signature", signature_length(good)), ORDER)
    frame = right_frame(SigningKey(good, SEED, SECRET, 1, 1))
    given = {**p._asdict(), **SEEDS, "r": R, "root": root, "message": text, "leaf": leaf}
    given |= {"next_leaf": next_leaf, "mark": int(mark)}
    # the leaf below was accepted; where the leaf is passed, it itself too
    given |= {"highest_leaf": leaf, "marks": 2 + (14 in causes)}
    given |= {
        "number": beyond(7, causes, count_of(good), (1 << 160) - 1),
        "row": row_with(good, sized.l, causes),
        "values": derived("values", 16 * sized.l + (13 in causes)),
        "signature": flipped(signature, -1) if 15 in causes else signature,
        "sheet": sheet[: len(sheet) - (17 in causes)],
        "frame": frame[: len(frame) - (17 in causes)],
    }
    needed = {"row": sized.l, "values": 16 * sized.l, "signature": signature_length(sized)}
    needed |= {"sheet": sheet_length(sized, len(text)), "frame": frame_length(sized)}
    sizes = {name: room - (6 in causes) for name, room in needed.items()}
    sizes |= {"table": table_length(sized.l, sized.s) - (5 in causes), "message": len(ORDER)}
    given |= {name: sizes[name] for name in LENT[operation]}
    answers = {name for name, kind, cause in parameters(operation) if kind == "*" and not cause}
    return {name: value for name, value in given.items() if name not in answers}


def right_profile(operation, causes):
    """The small profile's count is too small for an order, the gate's is not."""
    return LOW_GATE if operation in ORDERS and 19 not in causes else SMALL


def refused(operation, note, causes, good=None, given=None, no_edition=NO_EDITION):
    """Where the profile is given, sizes go with the good one: a library that takes the wrong one is
    not saved by a slice that is too short."""
    good = good or right_profile(operation, causes)
    p = given or profile_with(good, causes, no_edition)
    arguments = arguments_with(causes, operation, good, p, good if given else p)
    return held(causes[0], vector(operation, note, **arguments))


def refusals_of(operation):
    causes = numbers_told(operation)
    for at, cause in enumerate(causes):
        yield refused(operation, f"{cause} alone", [cause])
        if causes[at + 1 :]:
            yield refused(operation, f"{cause}, and every cause tested after it", causes[at:])
    for name, (cause, numbers) in WRONG.items():
        for number in numbers if cause in causes else []:
            note = f"{cause}: the gate profile with {name} = {number}"
            yield refused(operation, note, [cause], GATE, given=GATE._replace(**{name: number}))
    if 22 in causes:
        yield from refusals_by_edition(operation, causes)


def refusals_by_edition(operation, causes):
    """Further numbers that are no edition, with 4, and with all that is tested after 22; and each
    other cause in edition 2."""
    for number in NO_EDITIONS:
        yield refused(operation, f"4, and edition {number}", [4, 22], no_edition=number)
        if causes[-1] != 22:
            note = f"22: edition {number}, and every cause tested after it"
            yield refused(operation, note, causes[causes.index(22) :], no_edition=number)
    for cause in causes:
        if cause != 22:
            second = right_profile(operation, [cause])._replace(edition=2)
            yield refused(operation, f"{cause} alone, in edition 2", [cause], second)


def long_inputs():
    """What the plan above leaves: lengths and states at their other end. Pairs: the cause that must
    be told, and the vector."""
    yield 18, hash_vector("18: one byte too many", b"a", MOST_HASHED + 1)
    yield 18, hash_vector("18: three bytes, if the length were cut", b"abc", 1 + (1 << 16))
    p, long, most = LOW_GATE, derived("text", 201), PAST_WORD - 1
    words, size = table_length(p.l, p.s), signature_length(p)

    def sign_vector(note, key, text=ORDER):
        return vector("sign", note, key, r=R, message=text, table=words, signature=size)

    key = reserved_key(p, SEED, SECRET, 0)
    yield 16, sign_vector("16: a text of 201 bytes", key, long)
    key = key._replace(next=most)
    yield 12, vector("reserve", "12: the highest next leaf", key._replace(mark=0))
    yield 12, vector("reserve", "12: the highest next leaf, with a mark", key)
    yield 20, sign_vector("20: the highest next leaf, with a mark", key)
    yield 20, sign_vector("20: next leaf 0, with a mark", key._replace(next=0))
    root, signature = root_of(p, SEED, SECRET), bytes(4) + derived("signature", size - 3)
    for cause, note, window, text, shown in [
        (16, "a text of 201 bytes", (most, most), long, size),
        (13, "a byte too many", (most, most), ORDER, size + 1),
        (13, "no signature", (most, most), ORDER, 0),
        (14, "the largest highest leaf, all marks", (most, most), ORDER, size),
        (14, "32 below the highest", (32, 1), ORDER, size),
        (14, "31 below the highest and marked", (31, PAST_WORD // 2), ORDER, size),
    ]:
        given = {"message": text, "signature": signature[:shown], "table": words}
        yield cause, vector("verify", f"{cause}: {note}", Verifier(p, SEED, root, *window), **given)


def refusals_family():
    yield from (held(*pair) for pair in long_inputs())
    for operation in TABLE:
        if operation != "hash":
            yield from refusals_of(operation)
