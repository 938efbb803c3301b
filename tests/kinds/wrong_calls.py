"""Every operation made wrong in how it is called: it cuts a number or a length; reads just before
or behind memory that it is lent; writes what it is to read only; changes a slice or a state where
it refuses, for each cause, or a slice past its named length where it grants; leaves an old answer
where it refuses; names another line; tells another number for a cause, or a later cause before an
earlier one; or takes an edition that is none. And Compare by another rule.
"""

import ctypes

from causes import subsets
from inputs import FAR
from operations import CAUSES, EDITED, LENT, STATES, TABLE, numbers_told, parameters
from wrong import another_number, in_plan, laid, leaving, named, restored, way
from zarosnik import EQUAL, GREATER, LESS, WORDS

MOST_NUMBER = 22


@way
def cut(name, bits, right, given):
    return right(**{name: given[name] % (1 << bits)})


@way
def read(name, behind, right, given):
    ctypes.string_at(given[name] + (given.size(name) if behind else -1), 1)
    return right()


def flip(given, name, at, by=1):
    """A byte of a slice, if it is there."""
    if 0 <= at < given.size(name):
        ctypes.c_uint8.from_address(given[name] + at).value ^= by


@way
def write_the_same(name, right, given):
    flip(given, name, 0, by=0)
    return right()


@way
def last_changed(name, given):
    flip(given, name, given.size(name) - 1)


@way
def changed_past(name, given):
    flip(given, name, given.named(name))


@way
def another_line(by, given):
    given.put_state(line=given.state("line")[0] + by)


@way
def edition_by(rule, right, given):
    return right(edition=rule(given["edition"]))


# Compare. What becomes of an answer by the words of both numbers, least first, the right order and
# the right count of pairs.


def order_of(first, second):
    return LESS if first < second else GREATER if first > second else EQUAL


def signed(words):
    """Highest first, as they must stand to be compared as a list."""
    return [word - (word >> 31 << 32) for word in reversed(words)]


def least_place(first, second):
    """The place of the least word that differs, or the highest place."""
    return next((k for k in range(WORDS) if first[k] != second[k]), WORDS - 1)


RULES = [
    ("order", "of the least word that differs", lambda a, b, order, looked: order_of(a, b)),
    ("order", "of the highest words", lambda a, b, order, looked: order_of(a[-1], b[-1])),
    ("order", "of signed words", lambda a, b, order, looked: order_of(signed(a), signed(b))),
    ("order", "the other way", lambda a, b, order, looked: GREATER - order),
    ("looked", "from the least word up", lambda a, b, order, looked: least_place(a, b) + 1),
    ("looked", "the place", lambda a, b, order, looked: WORDS - looked),
    ("looked", "one less where one differs", lambda a, b, order, looked: looked - (a != b)),
    ("looked", "one less where none differs", lambda a, b, order, looked: looked - (a == b)),
    ("looked", "always 5", lambda a, b, order, looked: WORDS),
    ("looked", "by two words", lambda a, b, order, looked: (looked + 2) // 2),
]


@way
def answer_by(name, rule, given):
    numbers = (list(given.words(number)) for number in ("first", "second"))
    given.put_state(**{name: rule(*numbers, *given.state("order", "looked"))})


def wrong_in(operation):
    """What is wrong with one operation, and the function."""
    causes, kept = numbers_told(operation), [*LENT[operation], *STATES[operation]]
    for p in parameters(operation):
        name = p.name
        if p.by_value:
            yield from ((f"{name} cut to {bits} bits", cut(name, bits)) for bits in (8, 16))
            continue
        yield f"{name} read before", read(name, False)
        yield f"{name} read behind", read(name, True)
        if p.read_only:
            yield f"{name} written", write_the_same(name)
        elif causes and name not in kept:
            yield f"{name} left where refused", restored(name, causes)
        if name == "line":
            for outcome, by in [(0, 1), (17, -1), (17, 1)]:
                yield f"line {by:+} by {outcome}", leaving(another_line(by), outcome)
    for name in kept:
        for cause in causes:
            yield f"{name} changed by {cause}", leaving(last_changed(name), cause)
    for name in LENT[operation]:
        yield f"{name} changed past its length", leaving(changed_past(name), 0)


def wrong():
    for name, what, rule in RULES:
        yield f"{name} {what}", "compare", leaving(answer_by(name, rule), 0), in_plan
    for operation in TABLE:
        for what, function in wrong_in(operation):
            yield what, operation, function, in_plan
        for first, *later in subsets(CAUSES[operation], 2):
            number = abs(later[0]) if later else first % MOST_NUMBER + 1
            what = f"{number} {'before' if later else 'for'} {first}"
            if number != abs(first):
                yield what, operation, another_number(abs(first), number), laid(first, *later)
    for operation in EDITED:
        zero, above = edition_by(lambda e: max(e, 1)), edition_by(lambda e: min(e, 2))
        yield "edition 0 taken as 1", operation, zero, named("edition")
        yield "every edition above 2 taken", operation, above, named("edition")
    for operation, name, _ in FAR:
        yield f"length of {name} cut to 32 bits", operation, cut(f"{name}_len", 32), in_plan
