"""The cases of a run. A case is one call or a sequence of calls; the run's seed and the case's
number give it, so that it can be made again alone.

A run begins with what comes once: the tallest trees, orders at the counts on both sides of the
powers of two, sheets for texts of every length, and stored keys, right and wrong, of every kind.
Every round of cases has, for each operation, granted calls, each cause of refusal alone, each two
together, and several; wide numbers, slices whose length passes 32 bits, both editions and numbers
that are none; orders of earlier days and of the other edition; each way in which a leaf can stand
to a verifier's highest leaf and marks; and sequences in which a fresh key reserves, is stored and
signs, and a fresh verifier checks, in the order signed and in any other.
"""

import itertools
import random
from functools import cache, lru_cache, partial

import editions
import shapes
import stored_keys
import windows
import written_sheets
from answers import handed_back, key_read
from calls import call as called
from causes import subsets, wide_numbers
from damage import Order, flipped
from inputs import FAR, Inputs, any_shape, cheap_height, signable_shape
from keys import frame_length
from memory import Memory
from operations import CAUSES, EDITED, ORDERS
from signatures import EDITIONS, GATE, Profile, Verifier, fresh_key, restarted, root_of
from signatures import signature_length
from zarosnik import MOST_BITS

SEQUENCES = 8
# Causes that come in many ways, and numbers that are compared in more.
MANIFOLD = [("rank", [10]), ("verify", [15]), ("read_sheet", [17]), ("read_key", [17])]
MANIFOLD += [("read_key", []), *[("compare", [])] * 3]
# Orders of earlier days have numbers of 128 bits. Where numbers have so many today, an R that gave
# one below the count is soon found.
EARLIER_BITS = range(120, MOST_BITS + 1)
# Sequences sign with every leaf of trees that are no higher than this.
MOST_HEIGHT = 3


class Unsound(Exception):
    """A call is not what it was drawn to be: a fault of the tests, not of the library."""


def demand(holds, call):
    if not holds:
        raise Unsound(f"drawn otherwise, with the causes {call.causes}: {call}")


def caused(operation, causes, call):
    """The call, with the causes in the document's order. The first one must be told."""
    call.causes = [cause for cause in CAUSES[operation] if cause in causes]
    demand(call.outcome == abs(next(iter(call.causes), 0)), call)
    return call


def drawn(operation, causes, pick, *given, **how):
    """A call with just these causes, of which the first must be told."""
    inputs = Inputs(pick, operation, causes, **how)
    return caused(operation, causes, getattr(inputs, operation)(*given))


def single(operation, causes, pick, far=None, wide=None):
    """One call. A far slice is one whose length passes 32 bits. Where l is the end of what a number
    can be, no s is too large, so just the first cause is sure then."""
    call = drawn(operation, causes, pick, far=far, wide=wide)
    if wide:
        call.stated = "wide", tuple(causes), wide
        call.causes = call.causes[:1]
    yield call


def edge(operation, shape, pick):
    """An order at a count near a power of two, and nothing but the count may refuse it. The tree is
    low: it has no part in the bits."""
    answer = shapes.answer_at(shape)
    p = Profile(*shape, pick.randrange(2), pick.choice(EDITIONS))
    yield drawn(operation, [answer] if answer else [], pick, profile=p)


def edition(operation, number, pick):
    """Nothing but the edition may refuse the call."""
    causes = [22] if editions.answer_to(number) else []
    yield drawn(operation, causes, pick, edition=number)


def crossed(operation, number, pick):
    """Checks, in this edition, an order that was signed in the other. Where numbers are few, both
    may have the same one: another is drawn then."""
    while True:
        p = Profile(*signable_shape(pick), pick.randrange(11), number)
        order = Order(pick, p)
        order.sign_as_other_edition()
        if not order.leads_to_root():
            break
    yield drawn(operation, [15], pick, order, profile=p)


def high_leaf(operation, number, pick):
    """Signs, in this edition, with a leaf that one byte does not hold, under a tree of short
    chains; numbers have 16 bits."""
    p = Profile(10, 4, 15, pick.choice([9, 10]), number)
    counter = pick.randrange((1 << 8) + 1, (1 << p.h) + 1), 1
    yield drawn(operation, [], pick, counter, profile=p)


def last(operation, number, digits, pick):
    """Reads, expecting this edition, a sheet with these digits behind s in frame 01."""
    causes = [17] if editions.line_to(number, digits) else []
    yield drawn(operation, causes, pick, digits, edition=number)


def written(operation, number, size, pick):
    """Writes, in this edition, texts of so many bytes as sheets, with slices of each length."""
    for slices in written_sheets.SLICES:
        inputs = Inputs(pick, operation, edition=number)
        given = written_sheets.drawn(pick, inputs.good, size, slices)
        call = inputs.call(inputs.good, **given)
        yield caused(operation, written_sheets.causes_of(size, slices), call)
        if call.outcome == 0:
            yield from read_back(call, pick)


def read_back(call, pick):
    """Reads the sheet that a call has written: this is the signature and the text."""
    parts = {name: call.given[name] for name in ("signature", "message")}
    slices = {name: pick.randbytes(len(part)) for name, part in parts.items()}
    sheet = call.left["sheet"][: call.left["sheet_written"]]
    read = called(pick, "read_sheet", call.profile(), sheet=sheet, **slices)
    demand(read.outcome == 0 and {name: read.left[name] for name in parts} == parts, read)
    read.stated = ("written",)
    yield read


def counter(operation, kind, pick):
    """A key whose next leaf and mark are of this kind. Nothing but these may refuse the call."""
    number, tree, name, mark = kind
    answer = stored_keys.answer_to(operation, kind)
    causes = [answer] if answer in (20, 21, 12) else []
    l, w, s = signable_shape(pick) if operation in ORDERS else any_shape(pick)
    # a key that signs hashes its tree
    most = cheap_height(pick, l, w) or 1 if operation in ORDERS else 10
    p = Profile(l, w, s, stored_keys.drawn_height(pick, tree, most), number)
    key = stored_keys.any_key(pick, p, stored_keys.NEXT_LEAVES[name][0](p.h), mark)
    inputs = Inputs(pick, operation, profile=p)
    if operation == "reserve":
        # the last leaf was reserved, and a mark goes first
        causes += [12] if answer == 21 and stored_keys.NEXT_LEAVES[name][2] else []
        yield caused(operation, causes, inputs.call(key))
    elif operation == "sign":
        yield caused(operation, causes, inputs.sign(key[3:]))
    elif operation == "write_key":
        call = inputs.call(key, frame=inputs.lent("frame", frame_length(p)))
        yield caused(operation, [], call)
        frame = call.left["frame"][: frame_length(p)]
        yield read_as(key._replace(mark=answer), frame, pick, "written")
    else:
        yield read_as(key._replace(mark=answer), stored_keys.marked_frame(key), pick)


def read_as(key, frame, pick, *stated):
    """Reads a stored key, which is this one."""
    read = called(pick, "read_key", frame=frame)
    demand(read.outcome == 0 and key_read(read.left) == key, read)
    read.stated = stated
    return read


def key_slice(operation, number, longer, pick):
    """Writes a key, in this edition, into a slice that is so much longer than it must be."""
    inputs = Inputs(pick, operation, edition=number)
    key = stored_keys.any_key(pick, inputs.good)
    size = frame_length(inputs.good) + longer
    frame = Memory(pick.randbytes(size), spare=max(0, longer))
    causes = [6] if stored_keys.SLICES[longer] else []
    yield caused(operation, causes, inputs.call(key, frame=frame))


def stored(operation, kind, pick):
    """Reads a frame of this kind."""
    inputs, answer = Inputs(pick, operation), stored_keys.READ_KINDS[kind]
    key = stored_keys.any_key(pick, inputs.good)
    call = inputs.call(frame=stored_keys.drawn_frame(pick, key, kind))
    told = call.outcome if answer is None else answer
    call.stated = "stored", kind
    yield caused(operation, [told] if told else [], call)


def earlier(operation, bits, pick):
    """Checks an order of earlier days, when there was one edition. Where its number has fewer bits
    today it is refused, though it was taken then; with 128 bits it is the same order."""
    p = Profile(*pick.choice(shapes.by_bits()[bits]), pick.randrange(11), 1)
    order = Order(pick, p)
    order.sign_as_earlier()
    call = drawn(operation, [] if bits == MOST_BITS else [15], pick, order, profile=p)
    call.stated = ("earlier",)
    yield call


def window(operation, kind, answer, pick):
    """Checks an order whose leaf stands to the verifier in this way. Nothing but 14 may refuse it.
    Not every leaf can stand so."""
    found = None
    while found is None:
        p = Profile(*signable_shape(pick), pick.randrange(11), pick.choice(EDITIONS))
        order = Order(pick, p)
        found = windows.state_of(pick, kind, answer, order.leaf)
    yield drawn(operation, [answer] if answer else [], pick, order, found, profile=p)


def several(operation, pick):
    causes = [cause for cause in CAUSES[operation] if pick.random() < 0.3]
    yield from single(operation, causes, pick)


class Sequence:
    """A fresh key reserves and signs, a fresh verifier checks. What a call hands back is given to
    the next. That is the implementation's state, and the library's too: each call is compared
    before the next."""

    def __init__(self, pick, p):
        self.pick, self.p = pick, p
        self.key = fresh_key(p, pick.randbytes(16), pick.randbytes(16))
        self.root = root_of(p, self.key.seed, self.key.secret)
        self.renew_verifier()
        self.issued, self.lost = [], []

    def renew_verifier(self):
        self.verifier = Verifier(self.p, self.key.seed, self.root, 0, 0)

    def reserve(self):
        """Granted, or refused where a mark stands or no leaf is left."""
        call = called(self.pick, "reserve", self.key)
        self.key = handed_back(self.key, call.left)
        return call

    def sign(self):
        """The next order, granted or refused."""
        causes = self.pick.choice([[], [], [], [5], [16], [6]])
        inputs = Inputs(self.pick, "sign", causes, profile=self.p)
        size, message = signature_length(self.p), inputs.message()
        given = {"r": self.pick.randbytes(16), "message": message, "table": inputs.table()}
        call = inputs.call(self.key, **given, signature=inputs.lent("signature", size))
        self.key = handed_back(self.key, call.left)
        if call.outcome == 0:
            self.issued.append((call.left["signature"][:size], message.before))
        return call

    def stored(self):
        """The key is stored; and where power fails then, read again with its mark cleared."""
        frame = self.pick.randbytes(frame_length(self.p) + self.pick.randrange(3))
        call = called(self.pick, "write_key", self.key, frame=frame)
        yield call
        if self.issued and self.pick.random() < 0.15:
            self.lost.append(self.key.next - 1)
            call = called(self.pick, "read_key", frame=call.left["frame"][: frame_length(self.p)])
            yield call
            self.key = restarted(key_read(call.left))

    def check(self, signature, text, causes=()):
        inputs = Inputs(self.pick, "verify", causes, profile=self.p)
        given = {"message": text, "signature": signature, "table": inputs.table()}
        call = inputs.call(self.verifier, **given)
        self.verifier = handed_back(self.verifier, call.left)
        return call

    def refused_check(self, taken):
        """Damaged, without the work slice, or replayed. Where numbers are few, a changed text or R
        may have the number of the order and is then taken: another check is drawn."""
        verifier, pick = self.verifier, self.pick
        while True:
            signature, text = pick.choice(self.issued)
            checks = [(flipped(pick, signature), text), (signature, flipped(pick, text))]
            checks += [(signature + b"\0", text), (signature, text, [5])]
            checks += [pick.choice(taken) for _ in range(2) if taken]
            call = self.check(*pick.choice(checks))
            if call.outcome:
                return call
            self.verifier = verifier

    def run(self):
        yield called(self.pick, "root", self.key)
        while self.key.next < 1 << self.p.h:
            for call in (self.sign, self.reserve, self.reserve):
                yield call()
            yield from self.stored()
            while self.key.mark:
                yield self.sign()
        for call in (self.reserve, self.sign):
            yield call()
        leaves = [int.from_bytes(signature[:4], "big") for signature, _ in self.issued]
        if sorted(leaves + self.lost) != list(range(1 << self.p.h)):
            raise Unsound(f"the leaves signed with are {leaves}, those lost {self.lost}")
        yield from self.checks(self.issued)
        self.renew_verifier()
        yield from self.checks(self.pick.sample(self.issued, len(self.issued)))

    def checks(self, arriving):
        """Whatever is refused in between, each order issued is taken and reports the same steps:
        the tree has no two leaves 32 apart."""
        for place, order in enumerate(arriving):
            for _ in range(self.pick.randrange(3)):
                yield self.refused_check(arriving[:place])
            call = self.check(*order)
            steps = self.p.l * (self.p.w - 1) - self.p.s
            demand(call.outcome == 0 and call.left["steps"] == steps, call)
            yield call


def sequence(pick):
    l, w, s = signable_shape(pick)
    h = min(cheap_height(pick, l, w), MOST_HEIGHT)
    yield from Sequence(pick, Profile(l, w, s, h, pick.choice(EDITIONS))).run()


def tall(p, pick):
    """A tree that takes long to hash, once in a run: the first leaf, any between, and the last."""
    orders = Sequence(pick, p)
    yield called(pick, "root", orders.key)
    last = (1 << p.h) - 1
    for leaf in (0, pick.randrange(1, last), last):
        orders.key = orders.key._replace(next=leaf)
        yield orders.reserve()
        while orders.key.mark:
            yield orders.sign()
    for call in (orders.sign, orders.reserve):
        yield call()
    for signature, text in orders.issued:
        yield orders.check(signature, flipped(pick, text))
        yield orders.check(signature, text)
    orders.renew_verifier()
    for signature, text in reversed(orders.issued):
        yield orders.check(signature, text)


# The gate profile; every height that a sequence has not, at the shape of the shortest chains at
# which numbers have 128 bits, in turn in either edition; and the tallest tree in edition 2, at
# short chains with numbers of 16 bits.
TALL = [GATE, *(Profile(39, 11, 195, h, 1 + h % 2) for h in range(MOST_HEIGHT + 1, GATE.h))]
TALL += [Profile(10, 4, 15, GATE.h, 2)]


@cache
def beginning():
    """Once in a run."""
    cases = [partial(tall, p) for p in TALL]
    cases += [partial(edge, name, shape) for shape in shapes.edges() for name in ORDERS]
    texts = itertools.product(EDITIONS, written_sheets.TEXTS)
    cases += [partial(written, "write_sheet", *text) for text in texts]
    cases += [partial(counter, *wanted) for wanted in stored_keys.WANTED]
    cases += [partial(key_slice, "write_key", *sliced) for sliced in stored_keys.SLICED]
    return cases + [partial(stored, "read_key", kind) for kind in stored_keys.READ_KINDS]


@cache
def plan():
    cases = [partial(single, operation, causes, far=far) for operation, far, causes in FAR]
    for operation, causes in CAUSES.items():
        granted = [[]] * (2 + 2 * len(causes))
        alone = subsets(causes, 1)
        cases += [partial(single, operation, c) for c in granted + 2 * alone + subsets(causes, 2)]
        cases += [partial(several, operation)] * len(causes)
        cases += [partial(single, operation, c, wide=w) for c, w in wide_numbers(operation)]
    cases += [partial(edition, *tried) for tried in itertools.product(EDITED, editions.TRIED)]
    cases += [partial(crossed, "verify", number) for number in 4 * EDITIONS]
    cases += [partial(high_leaf, "sign", number) for number in EDITIONS]
    cases += [partial(last, "read_sheet", *given) for given in editions.SHEETS]
    cases += [partial(single, operation, causes) for operation, causes in MANIFOLD * 20]
    cases += [partial(earlier, "verify", bits) for bits in EARLIER_BITS]
    cases += [partial(window, "verify", *kind) for kind in windows.KINDS]
    return cases + [sequence] * SEQUENCES


@lru_cache(maxsize=2)
def round_of(seed, number):
    cases = list(plan())
    random.Random(f"{seed} round {number}").shuffle(cases)
    return cases


def case(seed, number):
    """The calls of a case, each drawn when the one before was made."""
    pick = random.Random(f"{seed} case {number}")
    if number < len(beginning()):
        return beginning()[number](pick)
    turn, place = divmod(number - len(beginning()), len(plan()))
    return round_of(seed, turn)[place](pick)
