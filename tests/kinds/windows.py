"""How a leaf stands to a cabinet's highest leaf and marks: the kinds that must come up, each with
its answer where nothing but 14 may refuse the order, and a draw in which all do.

Most kinds are a stand, with spans of the distance between the leaf and the highest. Others are odd
states, most of which no list of checks from fresh leads to: they are taken as they are. The last
are highest leaves so high that all is passed, unless they are cut.
"""

from signatures import WINDOW, is_passed

MOST_WORD = 2**32 - 1
ALL_MARKS = 2**WINDOW - 1
LAST_MARK = 2 ** (WINDOW - 1)
# From here on distances are far.
FAR = WINDOW + 2


def each(low, end):
    return [range(distance, distance + 1) for distance in range(low, end)]


WITHIN, BEYOND, FAR_OFF = range(1, WINDOW), range(WINDOW, 2**32), range(FAR, 2**32)
NO_MARK = "no mark set, the leaf"
STANDS = {
    f"{NO_MARK} above": (0, [WITHIN, BEYOND]),
    f"{NO_MARK} at": (0, each(0, 1)),
    f"{NO_MARK} below": (0, [WITHIN, BEYOND]),
    "above": (0, each(1, FAR) + [FAR_OFF]),
    "not above, not marked": (0, each(0, WINDOW)),
    "not above, marked": (14, each(0, WINDOW)),
    "too far below": (14, each(WINDOW, FAR) + [FAR_OFF]),
}
# With their answers, by the highest leaf and the marks. Those up to the highest leaf's number name
# a leaf.
ODD = {
    "fresh": ([0], lambda h, m: (h, m) == (0, 0)),
    "all marks": ([0, 14], lambda h, m: m == ALL_MARKS),
    "mark 31 alone": ([0, 14], lambda h, m: m == LAST_MARK),
    "mark 0 not set, another set": ([0, 14], lambda h, m: m and m % 2 == 0),
    "a mark that names no leaf": ([0, 14], lambda h, m: m >> h + 1),
    "no mark but such that name no leaf": ([0], lambda h, m: m and not m % 2 ** min(h + 1, WINDOW)),
    "the highest is 2^32 - 1, no mark set": ([0], lambda h, m: h == MOST_WORD and not m),
    "the highest is 2^32 - 1, a mark set": ([14], lambda h, m: h == MOST_WORD and m),
}
CUTS = {f"the highest would take it if cut to {bits} bits": bits for bits in (8, 16, 31)}
OPERATIONS = ["verify"]
# Pairs: a kind and an answer.
KINDS = [((name, span), answer) for name, (answer, spans) in STANDS.items() for span in spans]
KINDS += [((name, None), answer) for name, (answers, _) in ODD.items() for answer in answers]
KINDS += [((name, None), 14) for name in CUTS]


def stand(highest, marks, leaf):
    distance, side = abs(leaf - highest), (leaf > highest) - (leaf < highest)
    if marks == 0:
        name = f"{NO_MARK} {['at', 'above', 'below'][side]}"
    elif side > 0:
        name = "above"
    elif distance >= WINDOW:
        name = "too far below"
    else:
        name = f"not above, {'' if marks & 2**distance else 'not '}marked"
    return name, next(span for span in STANDS[name][1] if distance in span)


def odd(highest, marks):
    return [name for name, (_, holds) in ODD.items() if holds(highest, marks)]


def cut(highest, marks, leaf):
    if not is_passed(highest, marks, leaf):
        return []
    return [name for name, bits in CUTS.items() if not is_passed(highest % 2**bits, marks, leaf)]


def kinds(highest, marks, leaf):
    names = odd(highest, marks) + cut(highest, marks, leaf)
    return {stand(highest, marks, leaf)} | {(name, None) for name in names}


def kinds_of(call):
    if call.outcome in (0, 14):
        leaf = int.from_bytes(call.given["signature"][:4], "big")
        window = call.given["highest_leaf"], call.given["marks"]
        yield from ((kind, call.outcome) for kind in kinds(*window, leaf))


def wanted():
    return KINDS


def told(kind):
    (name, span), answer = kind
    distance = f", distance {span[0]} to {span[-1]}" if span else ""
    return f"verify answers {answer} to a leaf and a cabinet: {name}{distance}"


def any_marks(pick):
    """Few, any, or nearly all: a single one is seen to be there, and to be missing."""
    one, other = (2 ** pick.randrange(WINDOW) for _ in range(2))
    few = [1, LAST_MARK, one, one | other, 1 | one]
    many = [ALL_MARKS, ALL_MARKS - one, ALL_MARKS - 1]
    return pick.choice([*few, *many, pick.randrange(1, 2**WINDOW)])


def any_state(pick, leaf):
    """The highest near the leaf, near 0 or anywhere; mostly with marks."""
    near, low = leaf + pick.randrange(-FAR - 6, FAR + 7), pick.randrange(WINDOW)
    highest = pick.choice([near, near, near, low, MOST_WORD, pick.getrandbits(32)])
    return max(0, min(highest, MOST_WORD)), any_marks(pick) if pick.random() < 0.9 else 0


def standing(pick, name, span, leaf):
    """A state to which the leaf stands so, unless the highest would be no number of 32 bits."""
    distance = pick.choice([span[0], pick.randrange(span.start, min(span.stop, 1000))])
    highest = leaf - distance if name.endswith("above") else leaf + distance
    marks = 0 if name.startswith(NO_MARK) else any_marks(pick)
    if name == "not above, marked":
        marks |= 2**distance
    if name == "not above, not marked":
        # another one is set
        marks = marks & ~(2**distance) or 2 ** ((distance + pick.randrange(1, WINDOW)) % WINDOW)
    return (highest, marks) if 0 <= highest <= MOST_WORD else None


def odd_state(pick, name, leaf):
    """A state of this kind, or one that may be."""
    highest, marks = any_state(pick, leaf)
    if name in CUTS:
        by = 2 ** CUTS[name]
        return highest % by + by * pick.choice([1, pick.randrange(1, 2**32 // by)]), marks
    if name == "no mark but such that name no leaf":
        highest = pick.randrange(WINDOW - 1)
        return highest, marks >> highest + 1 << highest + 1
    if name.startswith("the highest is 2^32 - 1"):
        return MOST_WORD, 0 if name.endswith("no mark set") else marks
    whole = {"all marks": ALL_MARKS, "mark 31 alone": LAST_MARK}
    return (0, 0) if name == "fresh" else (highest, whole.get(name, marks))


def state_of(pick, kind, answer, leaf):
    """A state that is of this kind for the leaf and has this answer, or None if none is found:
    there may be none for this leaf."""
    name, span = kind
    for _ in range(50):
        state = standing(pick, name, span, leaf) if span else odd_state(pick, name, leaf)
        if state and kind in kinds(*state, leaf) and is_passed(*state, leaf) == bool(answer):
            return state
    return None


def drawn(pick, leaf, answer):
    """A state with this answer to the leaf: of a kind, or any."""
    while True:
        kind = pick.choice([kind for kind, told in KINDS if told == answer])
        state = state_of(pick, kind, answer, leaf) if pick.random() < 0.7 else any_state(pick, leaf)
        if state and is_passed(*state, leaf) == bool(answer):
            return state
