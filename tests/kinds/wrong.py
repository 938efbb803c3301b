"""What makes an operation wrong, for tests/interface/mutants.py. A wrong function takes the right
one and a call's arguments, and answers as a wrong library would: `right()` makes the call,
`right(l=8)` with another l.

Each module of wrong rules has `wrong()`, which gives what is wrong, with which operation, the
function, and the cases of tests/interface/cases.py in which it must be seen. Where NOTHING is
wrong, an operation is made again by the right rule in the way of the wrong ones.
"""

import ctypes
from collections import namedtuple
from functools import partial

from operations import length_of, parameters, unit_of
from sheets import hex_line
from signatures import EDITIONS, Profile
from zarosnik import table_length

NOTHING = "nothing"
# Cases with each kind of calls that a run begins with; all others are those of the plan.
BEGINNING = ("edge", "written", "counter", "key_slice", "stored")
# No signature, no right sheet, no right frame and no table is longer.
MOST = {"values": 640, "signature": 820, "sheet": 4096, "frame": 256, "table": 4 * 123205}


def anywhere(case):
    return True


def in_plan(case):
    return case.func.__name__ not in BEGINNING


def named(*names):
    return lambda case: case.func.__name__ in names


def given_just(name, *given):
    """The cases of a name with just these arguments behind the operation."""
    return lambda case: case.func.__name__ == name and case.args[1:] in given


def laid(*causes):
    """Where just these causes are laid."""
    return given_just("single", (causes,))


granted = given_just("single", ([],))


class Given:
    """The arguments of one call by name; `NAME_len` is a slice's length."""

    def __init__(self, operation, values):
        names = []
        for p in parameters(operation):
            names += [p.name, f"{p.name}_len"] if p.has_length else [p.name]
        self.values = dict(zip(names, values, strict=True))

    def __getitem__(self, name):
        return self.values[name]

    def profile(self):
        return Profile(*(self[name] for name in Profile._fields))

    def size(self, name):
        """In bytes."""
        return unit_of(name) * self.values.get(f"{name}_len", length_of(name))

    def named(self, name):
        """How many bytes of a slice the document names."""
        if name in ("message", "sheet", "frame"):
            return self.counted(name)
        l, s, h = self["l"], self["s"], self.values.get("h", 0)
        sizes = {"row": l, "values": 16 * l, "signature": 20 + 16 * l + 16 * h}
        return sizes.get(name) or 4 * table_length(l, s)

    def counted(self, name):
        """The number of bytes written to a slice."""
        return int.from_bytes(self.content(f"{name}_written"), "little")

    def put_count(self, name, number):
        self.put(f"{name}_written", number.to_bytes(8, "little"))

    def words(self, name):
        """What stands there, to be read or changed."""
        return (ctypes.c_uint32 * (self.size(name) // 4)).from_address(self[name])

    def state(self, *names):
        """The word at each name."""
        return tuple(self.words(name)[0] for name in names)

    def put_state(self, **numbers):
        for name, number in numbers.items():
            self.words(name)[0] = number % 2**32

    def content(self, name):
        """What stands in memory, as far as a profile may need it."""
        return ctypes.string_at(self[name], min(self.size(name), MOST.get(name, 256)))

    def put(self, name, data):
        ctypes.memmove(self[name], data, len(data))

    def leaf(self):
        """That a signature names."""
        return int.from_bytes(self.content("signature")[:4], "big")


def way(function):
    """A way to be wrong: of the arguments the last ones, mostly right and given, come later."""
    return partial(partial, function)


@way
def leaving(change, *outcomes_and_call):
    """With these outcomes something else is left."""
    *outcomes, right, given = outcomes_and_call
    outcome = right()
    if outcome in outcomes:
        change(given)
    return outcome


@way
def restored(name, outcomes, right, given):
    """With these outcomes what stood there before is left."""
    before = given.content(name)
    return leaving(lambda given: given.put(name, before), *outcomes)(right, given)


@way
def another_number(cause, number, right, given):
    outcome = right()
    return number if outcome == cause else outcome


@way
def refused(slice_name, cause, holds, right, given):
    """Where a slice is written and this holds; nothing is written then."""
    before = given.content(slice_name)
    outcome = right()
    if outcome or not holds(given):
        return outcome
    given.put(slice_name, before)
    given.put_count(slice_name, 0)
    return cause


@way
def written(slice_name, content_of, right, given, needed=lambda edition, size: size):
    """By a rule, and by another for the length that the slice must have. What does not fit is left
    out."""
    before, size = given.content(slice_name), given.size(slice_name)
    outcome = right()
    if outcome not in (0, 6):
        return outcome
    made = content_of(given)
    fits = size >= needed(given["edition"], len(made))
    given.put(slice_name, before)
    given.put(slice_name, made[:size] if fits else b"")
    given.put_count(slice_name, len(made) if fits else 0)
    return 0 if fits else 6


@way
def half_counted(slice_name, right, given):
    """Four of the eight bytes are written."""
    name = f"{slice_name}_written"
    before = given.content(name)
    outcome = right()
    given.put(name, given.content(name)[:4] + before[4:])
    return outcome


class Writer(namedtuple("Writer", "name content")):
    """An operation that writes lines to a slice, tells how many bytes, and refuses by 6 where the
    slice is too short: what is to be written, from the call's arguments."""

    SPELT = {
        "lower-case digits": lambda made: made.lower(),
        "0D 0A for 0A": lambda made: made.replace(b"\n", b"\r\n"),
        "no 0A at the end": lambda made: made[:-1],
    }
    # Asked for, and counted: by the edition and the right length.
    LENGTHS = {
        "a byte more": lambda edition, size: size + 1,
        "a byte less": lambda edition, size: size - 1,
        "edition 1's length": lambda edition, size: size - 2 * (edition - 1),
        "edition 2's length": lambda edition, size: size - 2 * (edition - 2),
    }

    def by(self, content_of):
        return written(self.name, content_of)

    def changed(self, change):
        return self.by(lambda given: change(self.content(given)))

    def framed(self, kind, change, editions=EDITIONS):
        """The frames of one kind changed, in these editions. A sheet's first line has none."""

        def content_of(given):
            lines = map(bytes.fromhex, self.content(given).decode().splitlines())
            changed = [kind] if given["edition"] in editions else []
            return b"".join(hex_line(change(f) if f[0] in changed else f) for f in lines)

        return self.by(content_of)

    def counting(self, rule):
        name = self.name
        return leaving(lambda g: g.put_count(name, rule(g["edition"], g.counted(name))), 0)

    def wrong(self):
        """What is wrong by every such operation, and the function."""
        name, content = self
        made = {what: self.changed(change) for what, change in self.SPELT.items()}
        for what, rule in self.LENGTHS.items():
            made[f"{what} asked for"] = written(name, content, needed=rule)
            made[f"{what} counted"] = self.counting(rule)
        return made | {
            NOTHING: self.by(content),
            "four bytes of the count": half_counted(name),
            "the slice's length counted": leaving(lambda g: g.put_count(name, g.size(name)), 0),
            "the length needed told": leaving(lambda g: g.put_count(name, len(content(g))), 6),
            "what fits written": leaving(lambda g: g.put(name, content(g)[: g.size(name)]), 6),
        }
