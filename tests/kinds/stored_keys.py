"""Keys that reserve, sign, are written and are read: the kinds of calls that must come up, each
with its answer, and a draw of each. A counter is a key's next leaf and its mark: next leaves at
both ends of a tree and past it, with every kind of mark. Stored keys come right, with numbers of
the profile at their limits, and wrong: at each place, cut at each length, with something behind
them, spelt in another way, and with a number outside each limit.
"""

import itertools

from editions import LAST, MOST_WORD, RIGHT_LAST
from keys import frame_bytes, frame_length, right_frame
from memory import Memory
from sheets import FIRST, hex_line
from signatures import EDITIONS, Profile, SigningKey

# A mark, and numbers that are none. One of them would be a mark if it were cut.
MARK, MARKS = 1, [0, 1, 2, 7, 2**16 + 1, MOST_WORD]
# The next leaf by the height of the tree; whether a mark counts with it; and whether no leaf is
# left to reserve.
NEXT_LEAVES = {
    "0": (lambda h: 0, False, False),
    "1": (lambda h: 1, True, False),
    "2^h - 1": (lambda h: 2**h - 1, True, False),
    "2^h": (lambda h: 2**h, True, True),
    "2^h + 1": (lambda h: 2**h + 1, False, True),
    "2^16 + 1": (lambda h: 2**16 + 1, False, True),
    "2^32 - 1": (lambda h: MOST_WORD, False, True),
}
# A tree of one leaf has fewer that differ, and is a kind of its own.
TREES = {"more leaves": list(NEXT_LEAVES)}
TREES["one leaf"] = [name for name in NEXT_LEAVES if name not in ("1", "2^h - 1")]
PLACES = [(tree, name) for tree, names in TREES.items() for name in names]
COUNTERS = [(e, *place, mark) for e, place, mark in itertools.product(EDITIONS, PLACES, MARKS)]
OPERATIONS = ["reserve", "sign", "write_key", "read_key"]
# A stored key has 00 or 01 for the mark.
READ_COUNTERS = [("read_key", kind) for kind in COUNTERS if kind[3] in (0, 1)]
WANTED = [*itertools.product(OPERATIONS[:-1], COUNTERS), *READ_COUNTERS]


def counter_kinds(p, next_leaf, mark):
    tree = "more leaves" if p.h else "one leaf"
    named = [name for name in TREES[tree] if NEXT_LEAVES[name][0](p.h) == next_leaf]
    return {(p.edition, tree, name, mark) for name in named}


def answer_to(operation, kind):
    """Of Write key and Read key the mark that is written, or read."""
    _, _, name, mark = kind
    _, counts, spent = NEXT_LEAVES[name]
    counts = counts and mark == MARK
    if operation == "reserve":
        return 21 if counts else 12 if spent else 0
    return int(counts) if operation != "sign" else 0 if counts else 20


def counter_told(kind):
    edition, tree, name, mark = kind
    return f"next leaf {name}, mark {mark} in edition {edition}, {tree}"


def drawn_height(pick, tree, most=10):
    return 0 if tree == "one leaf" else pick.randrange(1, most + 1)


def any_key(pick, p, next_leaf=None, mark=None):
    counter = drawn(pick, p.h) if next_leaf is None else (next_leaf, mark)
    return SigningKey(p, pick.randbytes(16), pick.randbytes(16), *counter)


def no_mark(pick):
    """Some would be a mark if they were cut."""
    cut = [1 + 2**8, 1 + 2**16, 1 + 2**31, MARK + (pick.randrange(1, 2**24) << 8)]
    return pick.choice([*(mark for mark in MARKS if mark != MARK), 0, 0, *cut])


def drawn(pick, h, counts=None, spent=None):
    """A next leaf and a mark, which counts or not, past the last leaf or not, or as it comes. Under
    a tree of one leaf no mark counts unless the leaf is the last."""
    end = 2**h
    counts = pick.random() < 0.5 if counts is None else counts
    if counts and spent is None:
        return pick.choice([1, end, pick.randrange(1, end + 1)]), MARK
    if counts:
        return end if spent else pick.choice([1, end - 1, pick.randrange(1, end)]), MARK
    spent = pick.random() < 0.5 if spent is None else spent
    within = [0, 0, end - 1, pick.randrange(end)]
    # good but for one bit, which a cut may drop
    bits = [pick.randrange(h, 32), pick.randrange(16, 32), 16]
    past = [end, end + 1, MOST_WORD, pick.randrange(end, 2**32)]
    past += [pick.randrange(end) | 1 << bit for bit in bits] + [1 | 1 << bit for bit in (16, 31)]
    next_leaf = pick.choice([n for n in past if n >= end] if spent else within)
    idle = not 1 <= next_leaf <= end and pick.random() < 0.7
    return next_leaf, MARK if idle else no_mark(pick)


# Slices for a stored key: by how many bytes one is longer than it must be, and the answer. Edition
# 1's length is two bytes too few for edition 2.
SLICES = {-2: 6, -1: 6, 0: 0, 1: 0, 2: 0, 40: 0}
SLICED = list(itertools.product(EDITIONS, SLICES))


# Stored keys to read. A kind is an edition, what is changed, and a place or what it is changed to;
# with the answer, or None where another digit may give another key that is right, or none.

# The digits of a frame, two a byte: kind, l, w, h and s; the seeds; the next leaf; the mark; the
# last byte of edition 2.
HEAD, SEEDS, NEXT, MARK_DIGITS = range(12), range(12, 76), range(76, 84), range(84, 86)
BEHIND = {"a zero byte": b"\0", "0A": b"\n", "0D": b"\r", "0D 0A": b"\r\n", "a space": b" "}
BEHIND |= {"a digit": b"0", "two digits": b"02", "FF": b"\xff"}
BEHIND |= {"a sheet's first line": hex_line(FIRST), "a frame that is right": None}
# The whole line in another way.
SPELT = {
    "in lower case": lambda line: line.lower(),
    "ended by 0D 0A": lambda line: line[:-1] + b"\r\n",
    "ended by 0D": lambda line: line[:-1] + b"\r",
    "ended by a zero byte": lambda line: line[:-1] + b"\0",
    "with a space before 0A": lambda line: line[:-1] + b" \n",
    "behind a space": lambda line: b" " + line,
    "behind 0A": lambda line: b"\n" + line,
    "behind a sheet's first line": lambda line: hex_line(FIRST) + line,
    "as its bytes": lambda line: bytes.fromhex(line.decode()),
    "as its bytes and 0A": lambda line: bytes.fromhex(line.decode()) + b"\n",
    "with a digit less": lambda line: line[:-2] + b"\n",
    "with a digit more": lambda line: line[:-1] + b"0\n",
    "without its kind": lambda line: line[2:],
    "without the mark": lambda line: line[:84] + line[86:],
    "without the next leaf": lambda line: line[:76] + line[84:],
    "with s in one byte": lambda line: line[:8] + line[10:],
    "with the secret seed left out": lambda line: line[:44] + line[76:],
    "with 0A in the middle": lambda line: line[:44] + b"\n" + line[44:],
}
# With bytes for the kind and for the mark.
WRONG = {"behind it": BEHIND, "spelt": SPELT}
WRONG["kind"] = ["00", "01", "06", "08", "17", "70", "87", "FF"]
WRONG["mark"] = ["02", "03", "10", "11", "80", "81", "FF"]
# Numbers of a profile at their limits, and outside: with what stands in the frame.
WITHIN = {"l": [1, 40], "w": [2, 16], "s": ["0", "most"], "h": [0, 10]}
OUTSIDE = {"l": [0, 41, 255], "w": [0, 1, 17, 255], "s": ["most + 1", "65535"], "h": [11, 255]}


def read_kinds():
    for edition in EDITIONS:
        end = 84 + 2 * edition
        for place in range(end):
            yield (edition, "no digit at", place), 17
            # a mark's last digit becomes one above 1
            answer = 0 if place in (*SEEDS, *NEXT) else None if place in HEAD[2:] else 17
            yield (edition, "another digit at", place), answer
        yield from (((edition, "cut to", length), 17) for length in range(end + 1))
    for edition in EDITIONS:
        for table, answer in (WRONG, 17), (WITHIN, 0), (OUTSIDE, 17):
            for what, details in table.items():
                yield from (((edition, what, detail), answer) for detail in details)
    for last in LAST:
        yield (None, "behind the mark", last), 0 if last in RIGHT_LAST.values() else 17


READ_KINDS = dict(read_kinds())


def mark_in(frame):
    """The mark that stands in a frame that is right."""
    return int(frame[84:86])


# The outcomes with which the next leaf and the mark have been looked at.
LOOKED_AT = {"reserve": (0, 21, 12), "sign": (0, 20), "write_key": (0,), "read_key": (0,)}


def counter_in(call):
    """The profile, the next leaf and the mark of a call, and its answer, as above."""
    given, left = call.given, call.left
    if call.operation == "read_key":
        counter = left["next_leaf"], mark_in(given["frame"])
        return Profile(*left["profile"]), *counter, left["mark"]
    answer = mark_in(left["frame"]) if call.operation == "write_key" else call.outcome
    return call.profile(), given["next_leaf"], given["mark"], answer


def kinds_of(call):
    operation, outcome = call.operation, call.outcome
    if outcome in LOOKED_AT[operation]:
        *counter, answer = counter_in(call)
        for kind in counter_kinds(*counter):
            yield operation, counter_told(kind), answer
            if call.stated == ("written",):
                yield "a written key is read", counter_told(kind), 0
    if operation == "write_key" and outcome in (0, 6):
        p, size = call.profile(), call.memory["frame"].length
        yield operation, f"edition {p.edition}, bytes more {size - frame_length(p)}", outcome
    if call.stated and call.stated[0] == "stored":
        kind = call.stated[1]
        yield operation, told_frame(kind), None if READ_KINDS[kind] is None else outcome


def read_wanted(kinds):
    return (("read_key", told_frame(kind), READ_KINDS[kind]) for kind in kinds)


def wanted_but_read():
    """All but the kinds of frames, and what is read again."""
    for operation, kind in WANTED:
        yield operation, counter_told(kind), answer_to(operation, kind)
    for edition, longer in SLICED:
        yield "write_key", f"edition {edition}, bytes more {longer}", SLICES[longer]


def wanted():
    yield from wanted_but_read()
    for operation, kind in READ_COUNTERS:
        # a written key has a mark that counts, or none
        if answer_to(operation, kind) == kind[3]:
            yield "a written key is read", counter_told(kind), 0
    yield from read_wanted(READ_KINDS)


def told(kind):
    return "{}: {}, answer {}".format(*kind)


def told_frame(kind):
    edition, what, detail = kind
    shown = "nothing" if detail == "" else detail
    equal = " =" if what in WITHIN else ""
    return f"{what}{equal} {shown}" + (f", edition {edition}" if edition else "")


def not_digits(pick, digit):
    """Neighbours of the digits, lower case, line ends, the digit with a bit more, and others."""
    odd = [bytes([byte]) for byte in b"/:@G`ag \x00\n\r\x8a\xff\x10"]
    odd += 3 * [bytes([digit[0] | 0x80])]
    lower = digit.lower()
    return pick.choice([*odd, lower, lower] if lower != digit else odd)


def with_limit(pick, p, name, number):
    """The profile with a number at a limit, or outside it, and all others within theirs."""
    if name == "s":
        most = p.l * (p.w - 1)
        return p._replace(s={"0": 0, "most": most, "most + 1": most + 1, "65535": 65535}[number])
    p = p._replace(**{name: number})
    return p._replace(s=pick.choice([0, max(0, p.l * (p.w - 1))]))


def drawn_frame(pick, key, kind):
    """A stored key of this kind, as memory. Behind one that was cut stands the rest."""
    edition, what, detail = kind
    p = key.profile._replace(edition=edition or 1)
    line = right_frame(key._replace(profile=p))
    if what in WITHIN:
        return Memory(hex_line(frame_bytes(with_limit(pick, p, what, detail), *key[1:4], b"\0")))
    if what in ("cut to", "spelt"):
        changed = line[:detail] if what == "cut to" else SPELT[detail](line)
        return Memory(changed, behind=line[len(changed) :] if line.startswith(changed) else b"")
    if what == "behind it":
        return Memory(line + (BEHIND[detail] or line))
    if what == "behind the mark":
        return Memory(line[:-1] + detail.encode() + b"\n")
    place = {"kind": 0, "mark": MARK_DIGITS[0]}.get(what, detail)
    if what == "no digit at":
        shown = not_digits(pick, line[place : place + 1])
    elif what == "another digit at":
        digits = b"0123456789ABCDEF"[2 if place == MARK_DIGITS[-1] else 0 :]
        shown = bytes([pick.choice([digit for digit in digits if digit != line[place]])])
    else:
        shown = detail.encode()
    return Memory(line[:place] + shown + line[place + len(shown) :])


def marked_frame(key):
    """With 01 or 00 for the mark as it stands, also where it does not count."""
    return hex_line(frame_bytes(*key[:4], bytes([key.mark == MARK])))
