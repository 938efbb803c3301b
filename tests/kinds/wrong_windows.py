"""Check made wrong in its highest leaf and marks: by another rule for 14 or for what an acceptance
leaves. A rule says, from the highest leaf, the marks and a leaf, whether the leaf is passed, and
gives the highest leaf and the marks that are left where it is accepted.
"""

from signatures import WINDOW, is_passed, with_leaf
from windows import ALL_MARKS, MOST_WORD
from wrong import NOTHING, anywhere, in_plan, named, way
from wrong_orders import WINDOW_NAMES, put_window

# By these every leaf of a tree is taken, and every one is passed.
TAKES_ALL, PASSES_ALL = (0, 0), (MOST_WORD, 1)


@way
def verify_by(rule, marking, right, given):
    """Check by a rule; the right function judges all else. What an acceptance leaves is left with
    these outcomes."""
    before = given.state(*WINDOW_NAMES)
    passed, after = rule(*before, given.leaf())
    put_window(given, PASSES_ALL if passed else TAKES_ALL)
    outcome = right()
    put_window(given, after if outcome in marking else before)
    return outcome


def right_rule(highest, marks, leaf):
    return is_passed(highest, marks, leaf), with_leaf(highest, marks, leaf)


@way
def passing(wrongly_passed, highest, marks, leaf):
    return wrongly_passed(highest - leaf, marks), with_leaf(highest, marks, leaf)


@way
def seeing(seen, highest, marks, leaf):
    return right_rule(*seen(highest, marks), leaf)


@way
def always_leaving(changed, *state):
    passed, after = right_rule(*state)
    return passed, changed(*after)


@way
def leaving(kind, left, highest, marks, leaf):
    """A leaf that is passed may be too far below for a mark."""
    passed, after = right_rule(highest, marks, leaf)
    stands = "first" if not marks else "above" if leaf > highest else "older"
    if passed or stands != kind:
        return passed, after
    return passed, left(highest, marks, leaf - highest if kind == "above" else highest - leaf)


def bit(marks, at):
    return 0 <= at < WINDOW and marks >> at & 1 == 1


def up(marks, by):
    return marks << by & ALL_MARKS


def naming(highest, marks):
    return highest, marks % 2 ** min(highest + 1, WINDOW)


def by_mark(below, marks, at, size=WINDOW):
    return marks > 0 and (below >= size or bit(marks, at))


# Whether a leaf is passed, by how far it is below the highest, which may be above, and the marks.
PASSING = {
    "31 leaves for 32": lambda b, m: by_mark(b, m, b, 31),
    "33 leaves for 32": lambda b, m: by_mark(b, m, b, 33),
    "no leaf marked": lambda b, m: m > 0 and b >= WINDOW,
    "none but a higher leaf taken": lambda b, m: m > 0 and b >= 0,
    "the next mark": lambda b, m: by_mark(b, m, b + 1),
    "the mark before": lambda b, m: by_mark(b, m, b - 1),
    "marks from 31 down": lambda b, m: by_mark(b, m, WINDOW - 1 - b),
    "marks for higher leaves too": lambda b, m: by_mark(b, m, abs(b)),
    "marks by the distance modulo 32": lambda b, m: bit(m, b % WINDOW),
    "a difference that wraps": lambda b, m: by_mark(b % 2**32, m, b),
    "too far below with no mark set": lambda b, m: b >= WINDOW or bit(m, b),
    "none below taken with no mark set": lambda b, m: by_mark(b, m, b) if m else b > 0,
}
# The right rule by a highest leaf and marks that are seen otherwise.
SEEING = {
    "the highest leaf cut to 8 bits": lambda h, m: (h % 2**8, m),
    "the highest leaf cut to 16 bits": lambda h, m: (h % 2**16, m),
    "the highest leaf cut to 31 bits": lambda h, m: (h % 2**31, m),
    "marks cut to 31": lambda h, m: (h, m % 2**31),
    "marks that name no leaf do not count": naming,
    "mark 0 set where another is": lambda h, m: (h, m | 1 if m else 0),
    "no mark set where mark 0 is not": lambda h, m: (h, m if m % 2 else 0),
    "no mark set where the highest is 0": lambda h, m: (h, m if h else 0),
}
# What is left where there is no mark, where the leaf is above the highest, and where it is not: by
# the highest leaf, the marks and how far the leaf is below, or above.
LEAVING = {
    "first": {
        "a higher highest stays": lambda h, m, d: (max(h, h - d), 1),
        "marked below a higher highest": lambda h, m, d: (max(h, h - d), up(1, max(d, 0))),
        "not marked": lambda h, m, d: (h - d, 0),
        "all marked": lambda h, m, d: (h - d, ALL_MARKS),
    },
    "above": {
        "marks stay": lambda h, m, d: (h + d, m | 1),
        "marks forgotten": lambda h, m, d: (h + d, 1),
        "moved one too far": lambda h, m, d: (h + d, up(m, d + 1) | 1),
        "moved one too few": lambda h, m, d: (h + d, up(m, d - 1) | 1),
        "moved by one": lambda h, m, d: (h + d, up(m, 1) | 1),
        "moved down": lambda h, m, d: (h + d, m >> d | 1),
        "moved by the distance modulo 32": lambda h, m, d: (h + d, up(m, d % WINDOW) | 1),
        "turned round": lambda h, m, d: (h + d, up(m, d % WINDOW) | m >> -d % WINDOW | 1),
        "moved by 31 at most": lambda h, m, d: (h + d, up(m, min(d, WINDOW - 1)) | 1),
        "forgotten from 31 on": lambda h, m, d: (h + d, up(m, d) * (d < WINDOW - 1) | 1),
        "kept from 32 on": lambda h, m, d: (h + d, (up(m, d) if d < WINDOW else m) | 1),
        "mark 0 alone moved": lambda h, m, d: (h + d, up(m & 1, d) | 1),
        "not marked": lambda h, m, d: (h + d, up(m, d)),
        "the leaves between marked": lambda h, m, d: (h + d, up(m, d) | 2 ** min(d, WINDOW) - 1),
    },
    "older": {
        "the highest": lambda h, m, d: (h - d, m | 2**d),
        "the highest, marks moved down": lambda h, m, d: (h - d, m >> d | 1),
        "not marked": lambda h, m, d: (h, m),
        "marked alone": lambda h, m, d: (h, 2**d),
        "mark 0 for its own": lambda h, m, d: (h, m | 1),
        "mark 0 too": lambda h, m, d: (h, m | 2**d | 1),
        "the next mark": lambda h, m, d: (h, m | up(2, d)),
        "the mark before": lambda h, m, d: (h, m | 2**d >> 1),
        "all marks up to it": lambda h, m, d: (h, m | 2 ** (d + 1) - 1),
    },
}
# What is changed behind the right rule.
ALWAYS = {
    "the next leaf kept for the highest": lambda h, m: (h + 1, m),
    "31 marks": lambda h, m: (h, m % 2**31),
    "marks that name no leaf fall away": naming,
}


def rules():
    for way_of, made in (passing, PASSING), (seeing, SEEING), (always_leaving, ALWAYS):
        yield from ((what, way_of(rule)) for what, rule in made.items())
    for kind, made in LEAVING.items():
        yield from ((f"{kind}: {what}", leaving(kind, left)) for what, left in made.items())


def wrong():
    yield NOTHING, "verify", verify_by(right_rule, [0]), anywhere
    for what, rule in rules():
        yield what, "verify", verify_by(rule, [0]), named("window")
    for cause in (15, 19):
        yield f"marked by {cause}", "verify", verify_by(right_rule, [0, cause]), in_plan
