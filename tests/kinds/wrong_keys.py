"""Operations on keys made wrong. Reserve and Sign: by another rule for a mark that counts, for what
is reserved or signed with or for what is left. Write key and Read key: with other frames, by
another rule for a slice, a line, the numbers of a profile or the mark, or with another key given.
"""

from keys import NO_KEY, frame_bytes, read_key, right_frame
from operations import CAUSES
from sheets import FIRST, hex_line, line_bytes
from signatures import SigningKey
from stored_keys import MOST_WORD, mark_in
from wrong import MOST, NOTHING, Writer, anywhere, laid, leaving, named, refused, way

KINDS = named("counter", "key_slice", "stored")
MOST_HEIGHT = 10


def right_counts(h, next_leaf, mark):
    return mark == 1 and 1 <= next_leaf <= 2 ** min(h, 31)


# What else counts: another mark, and a mark with another next leaf; by the height, the next leaf n
# and the mark m.
COUNTING_MARKS = {
    "the mark cut to 8 bits": lambda h, n, m: m % 2**8 == 1 and 1 <= n <= 2**h,
    "the mark cut to 16 bits": lambda h, n, m: m % 2**16 == 1 and 1 <= n <= 2**h,
    "the number 2 is a mark": lambda h, n, m: m in (1, 2) and 1 <= n <= 2**h,
    "all ones are a mark": lambda h, n, m: m in (1, MOST_WORD) and 1 <= n <= 2**h,
}
COUNTING_LEAVES = {
    "the next leaf is not looked at": lambda h, n, m: m == 1,
    "no mark counts": lambda h, n, m: False,
    "a mark counts with next leaf 0": lambda h, n, m: m == 1 and n <= 2**h,
    "a mark counts with next leaf 2^h + 1": lambda h, n, m: m == 1 and 1 <= n <= 2**h + 1,
    "a mark does not count with next leaf 2^h": lambda h, n, m: m == 1 and 1 <= n < 2**h,
    "a mark does not count with next leaf 1": lambda h, n, m: m == 1 and 1 < n <= 2**h,
    "the next leaf cut to 8 bits": lambda h, n, m: m == 1 and 1 <= n % 2**8 <= 2**h,
    "the next leaf cut to 16 bits": lambda h, n, m: m == 1 and 1 <= n % 2**16 <= 2**h,
}
COUNTING = COUNTING_MARKS | COUNTING_LEAVES


@way
def reserving(right, given, counts=right_counts, more=0, by=None, left=None):
    """Reserve by another rule for a mark that counts, with more leaves or fewer, or with something
    else left by an outcome."""
    h, n, m = given["h"], *given.state("next_leaf", "mark")
    outcome = right()
    if outcome not in (0, 21, 12):
        return outcome
    told = 21 if counts(h, n, m) else 12 if n >= 2**h + more else 0
    next_leaf, mark = left(h, n, m) if told == by else (n, m) if told else (n + 1, 1)
    given.put_state(next_leaf=next_leaf, mark=mark)
    return told


LEFT = {
    (0, "the next leaf stays"): lambda h, n, m: (n, 1),
    (0, "no mark set"): lambda h, n, m: (n + 1, 0),
    (0, "the mark stays"): lambda h, n, m: (n + 1, m),
    (0, "the mark rises"): lambda h, n, m: (n + 1, m + 1),
    (0, "one byte of the mark"): lambda h, n, m: (n + 1, m >> 8 << 8 | 1),
    (0, "the mark beside the bits"): lambda h, n, m: (n + 1, m | 1),
    (12, "the next leaf falls to 2^h"): lambda h, n, m: (2**h, m),
    (12, "the mark is set"): lambda h, n, m: (n, 1),
    (12, "the mark is cleared"): lambda h, n, m: (n, 0),
}
RESERVES = {NOTHING: reserving()}
RESERVES |= {what: reserving(counts=counts) for what, counts in COUNTING.items()}
RESERVES |= {f"12 from 2^h {more:+} on": reserving(more=more) for more in (-1, 1)}
RESERVES |= {f"{what} by {by}": reserving(by=by, left=left) for (by, what), left in LEFT.items()}


# Sign. A mark that counts wrongly signs with some leaf of the tree, and one that wrongly does not
# count is refused.


def sign_as(right, given, next_leaf, mark):
    """The right function with another next leaf and mark; the mark stays where it refuses."""
    (before,) = given.state("mark")
    given.put_state(mark=mark)
    outcome = right(next_leaf=next_leaf % 2**32)
    if outcome:
        given.put_state(mark=before)
    return outcome


@way
def signing(counts, right, given):
    h, next_leaf, mark = given["h"], given["next_leaf"], *given.state("mark")
    # of a height that no tree has there is no other rule
    counted = (counts if h <= MOST_HEIGHT else right_counts)(h, next_leaf, mark)
    if counted == right_counts(h, next_leaf, mark):
        return right()
    return sign_as(right, given, min(max(next_leaf, 1), 2**h), int(counted))


@way
def with_next(next_of, right, given):
    """Signs as with another next leaf, by the height and the next leaf."""
    return sign_as(right, given, next_of(given["h"], given["next_leaf"]), *given.state("mark"))


def leaf_named(number_of):
    """Another leaf in the signature's first bytes."""
    return leaving(lambda given: given.put("signature", number_of(given["next_leaf"])), 0)


def mark_left(number, outcome):
    return leaving(lambda given: given.put_state(mark=number), outcome)


SIGNS = {NOTHING: signing(right_counts)} | {what: signing(c) for what, c in COUNTING.items()}
SIGNS |= {
    "the mark stays": mark_left(1, 0),
    "the next leaf signs": with_next(lambda h, n: n + 1),
    "leaf 0 signs": with_next(lambda h, n: 1 if 1 <= n <= 2**h else n),
    "leaf 0 is named": leaf_named(lambda n: bytes(4)),
    "the leaf's least byte first": leaf_named(lambda n: (n - 1).to_bytes(4, "little")),
}


# Write key.


def key_of(given):
    """What the frame is made of."""
    seeds = given.content("public_seed"), given.content("secret_seed")
    return SigningKey(given.profile(), *seeds, given["next_leaf"], given["mark"])


WRITER = Writer("frame", lambda given: right_frame(key_of(given)))


def framed(change, *editions):
    return WRITER.framed(7, change, editions or (1, 2))


def marked_by(byte_of):
    """Another byte for the mark, by the height, the next leaf and the mark."""

    def line_of(given):
        p, *seeds, n, m = key_of(given)
        return hex_line(frame_bytes(p, *seeds, n, bytes([byte_of(p.h, n, m)])))

    return WRITER.by(line_of)


def exchanged(frame, a, b, c):
    """Two parts of a frame that stand side by side."""
    return frame[:a] + frame[b:c] + frame[a:b] + frame[c:]


def leaf_reserved(frame):
    next_leaf = int.from_bytes(frame[38:42], "big") - frame[42]
    return frame[:38] + next_leaf.to_bytes(4, "big") + frame[42:]


def refused_where(cause, holds):
    """By the height, the next leaf and the mark."""
    return refused("frame", cause, lambda g: holds(g["h"], g["next_leaf"], g["mark"]))


WRITES = WRITER.wrong() | {what: marked_by(counts) for what, counts in COUNTING.items()}
WRITES |= {
    "l and w exchanged": framed(lambda f: exchanged(f, 1, 2, 3)),
    "w and h exchanged": framed(lambda f: exchanged(f, 2, 3, 4)),
    "s before h": framed(lambda f: exchanged(f, 3, 4, 6)),
    "s least byte first": framed(lambda f: exchanged(f, 4, 5, 6)),
    "the seeds exchanged": framed(lambda f: exchanged(f, 6, 22, 38)),
    "the public seed twice": framed(lambda f: f[:22] + f[6:22] + f[38:]),
    "the next leaf's least byte first": framed(lambda f: f[:38] + f[41:37:-1] + f[42:]),
    "two bytes of the next leaf": framed(lambda f: f[:38] + bytes(2) + f[40:]),
    "the mark before the next leaf": framed(lambda f: exchanged(f, 38, 42, 43)),
    "no last byte in edition 2": framed(lambda f: f[:-1], 2),
    "01 for edition 2": framed(lambda f: f[:-1] + b"\1", 2),
    "02 in edition 1": framed(lambda f: f + b"\2", 1),
    "01 in edition 1": framed(lambda f: f + b"\1", 1),
    "02 before the mark": framed(lambda f: exchanged(f, 42, 43, 44), 2),
    "a sheet's first line": WRITER.changed(lambda line: hex_line(FIRST) + line),
    "the leaf reserved for the next leaf": framed(leaf_reserved),
    "the mark as its last byte": marked_by(lambda h, n, m: m % 256),
    "the mark the other way": marked_by(lambda h, n, m: not right_counts(h, n, m)),
    "12 for a spent key": refused_where(12, lambda h, n, m: n > 2**h),
    "12 for a next leaf of 2^h": refused_where(12, lambda h, n, m: n == 2**h),
    "17 for an idle mark": refused_where(17, lambda h, n, m: m == 1 != right_counts(h, n, m)),
    "20 for no mark": refused_where(20, lambda h, n, m: m == 0),
    "21 for a mark": refused_where(21, right_counts),
}


# Read key.


@way
def read_by(line_of, right, given, key_of=lambda key, frame: key):
    """Another line is taken: a rule gives the right one from it, or what it is given. And another
    key is given, or none."""
    outcome = right()
    if given.size("frame") > MOST["frame"]:
        return outcome
    frame = given.content("frame")
    refusal, _, key = read_key(line_of(frame))
    key = None if refusal else key_of(key, frame)
    p, seed, secret, next_leaf, mark = key or NO_KEY
    given.words("profile")[:] = list(p)
    given.put("public_seed", seed)
    given.put("secret_seed", secret)
    given.put_state(next_leaf=next_leaf, mark=mark, line=key is None)
    return 0 if key else 17


def by_bytes(change):
    """Of a whole line of upper-case digits other bytes are taken, as these are."""

    def line_of(frame):
        data = line_bytes(frame[:-1]) if frame.endswith(b"\n") else None
        return hex_line(change(data)) if data else frame

    return read_by(line_of)


def also(place, taken):
    """Some bytes at a place as others, if the frame is long enough."""
    return by_bytes(
        lambda d: d[:place] + bytes(taken.get(b, b) for b in d[place : place + 1]) + d[place + 1 :]
    )


def giving(change):
    """Another key is given, or none, by the key and the frame."""
    return read_by(lambda frame: frame, key_of=change)


def strictly(holds):
    """Keys that are right, refused unless this holds."""
    return giving(lambda key, frame: key if holds(key.profile, key.next, key.mark) else None)


def by_profile(change):
    return giving(lambda key, frame: key._replace(profile=change(key.profile)))


def marked(rule):
    """Another mark, by the height, the next leaf and the mark that stands there."""
    return giving(lambda k, f: k._replace(mark=int(rule(k.profile.h, k.next, mark_in(f)))))


READS = {NOTHING: giving(lambda key, frame: key)}
READS |= {what: marked(counts) for what, counts in COUNTING_LEAVES.items()}
READS |= {
    "something behind it taken": read_by(lambda f: b"".join(f.partition(b"\n")[:2])),
    "no 0A taken": read_by(lambda f: f if f.endswith(b"\n") else f + b"\n"),
    "0D 0A taken": read_by(lambda f: f[:-2] + b"\n" if f.endswith(b"\r\n") else f),
    "spaces taken": read_by(lambda f: f.strip(b" ").replace(b" \n", b"\n")),
    "0A before it taken": read_by(lambda f: f.lstrip(b"\n")),
    "a sheet's first line taken": read_by(lambda f: f.removeprefix(hex_line(FIRST))),
    "lower case taken": read_by(lambda f: f.upper()),
    "seven bits of a digit": read_by(lambda f: bytes(byte % 0x80 for byte in f)),
    "a digit more taken": read_by(lambda f: f[:86] + b"\n" if len(f) == 88 else f),
    "the bytes themselves taken": read_by(lambda f: hex_line(f[:44]) if len(f) < 46 else f),
    "the kind not looked at": also(0, dict.fromkeys(range(256), 7)),
    "four bits of the kind": also(0, {0x17: 7, 0x87: 7}),
    "l = 0 taken": also(1, {0: 1}),
    "l = 41 taken": also(1, {41: 40}),
    "w = 1 taken": also(2, {1: 2}),
    "w = 17 taken": also(2, {17: 16}),
    "h = 11 taken": also(3, {11: 10}),
    "the largest s refused": strictly(lambda p, n, m: p.s < p.l * (p.w - 1)),
    "one bit of the mark": also(42, {byte: byte & 1 for byte in range(256)}),
    "four bits of the mark": also(42, {byte: byte & 15 for byte in range(256)}),
    "every last byte taken": also(43, dict.fromkeys(range(256), 2)),
    "more bytes taken": by_bytes(lambda d: d[:44]),
    "more bytes taken behind edition 1's": by_bytes(lambda d: d[:43]),
    "a spent key refused": strictly(lambda p, n, m: n < 2**p.h),
    "a next leaf past the tree refused": strictly(lambda p, n, m: n <= 2**p.h),
    "next leaf 0 refused": strictly(lambda p, n, m: n > 0),
    "a mark refused": strictly(lambda p, n, m: not m),
    "l and w exchanged": by_profile(lambda p: p._replace(l=p.w, w=p.l)),
    "w and h exchanged": by_profile(lambda p: p._replace(w=p.h, h=p.w)),
    "s read least byte first": by_bytes(lambda d: exchanged(d, 4, 5, 6)),
    "edition 1 for 2": by_profile(lambda p: p._replace(edition=1)),
    "edition 2 for 1": by_profile(lambda p: p._replace(edition=2)),
    "the seeds exchanged": giving(lambda k, f: k._replace(seed=k.secret, secret=k.seed)),
    "the next leaf's least byte first": by_bytes(lambda d: d[:38] + d[41:37:-1] + d[42:]),
    "two bytes of the next leaf": giving(lambda k, f: k._replace(next=k.next % 2**16)),
    "the leaf reserved for the next leaf": giving(lambda k, f: k._replace(next=k.next - k.mark)),
    "the next leaf cut to 2^h": giving(lambda k, f: k._replace(next=min(k.next, 2**k.profile.h))),
    "always a mark": giving(lambda k, f: k._replace(mark=1)),
}


def wrong():
    made = {"reserve": RESERVES, "sign": SIGNS, "write_key": WRITES, "read_key": READS}
    for operation, functions in made.items():
        for what, function in functions.items():
            yield what, operation, function, anywhere if what == NOTHING else KINDS
    yield "the mark is cleared by 20", "sign", mark_left(0, 20), KINDS
    for cause in CAUSES["sign"][:-1]:
        where = KINDS if cause == 20 else laid(cause, 20)
        yield f"the mark is set by {cause}", "sign", mark_left(1, cause), where
