"""Test vectors of whole orders: a key reserves and signs and a cabinet checks, and what a call
hands back goes to the next. Each call is said to have an outcome, to which what the implementation
answers is held.
"""

import hashlib
import itertools

import shapes
import signatures
import windows
from answers import handed_back
from sheets import right_sheet
from signatures import GATE, GATE_2, Profile, Verifier, count_of, fresh_key, message_number
from signatures import order_digest, root_of, signature_length, signature_of
from vector_calls import LONG_ORDER, ORDER, OTHER_ORDER, SECRET, SEED, R
from vector_calls import derived, flipped, held, vector, vector_and_left
from worked_order import LEAF, WORKED
from zarosnik import MOST_BITS, first_bits, number_bits, row_of, table_length

# The nearest count above 2^power gives numbers of so many bits, the nearest below one bit less: the
# fewest and the most, and at the ends of words.
POWERS = (8, 9, 16, 31, 32, 33, 64, 96, 127, 128)
# Shapes at which orders of earlier days could be signed, and numbers have 127 and 112 bits today:
# in eight numbers about five were below the count, and in 2^15 one.
EARLIER = [(34, 16, 204), shapes.shortest(shapes.neighbours(113)[0])]


class Story:
    """The vectors of one key and one cabinet, both fresh at first."""

    def __init__(self, p, secret=SECRET):
        self.p = p
        self.key = fresh_key(p, SEED, secret)
        self.root = root_of(p, SEED, secret)
        self.cabinet = Verifier(p, SEED, self.root, 0, 0)
        self.words = table_length(p.l, p.s)
        self.vectors = [vector("root", "the root that the cabinet holds", self.key)]

    def add(self, operation, note, thing, outcome, **given):
        """What the call leaves."""
        made, left = vector_and_left(operation, note, thing, **given)
        self.vectors.append(held(outcome, made))
        return left

    def reserve(self, note, outcome=0):
        self.key = handed_back(self.key, self.add("reserve", note, self.key, outcome))

    def sign(self, note, text, r, outcome=0):
        """The text and its signature."""
        lent = {"table": self.words, "signature": signature_length(self.p)}
        left = self.add("sign", note, self.key, outcome, r=r, message=text, **lent)
        self.key = handed_back(self.key, left)
        return text, left["signature"]

    def order(self, note, text, r, leaf=None):
        """The next leaf, or another, is reserved and signs; the same."""
        self.key = self.key._replace(next=self.key.next if leaf is None else leaf)
        self.reserve(f"leaf {self.key.next} is reserved")
        return self.sign(note, text, r)

    def spent(self, text, r):
        self.reserve("the key is spent", 12)
        self.sign("the key is spent, and no leaf is reserved", text, r, 20)

    def verify(self, note, order, outcome=0):
        given = {"message": order[0], "signature": order[1], "table": self.words}
        left = self.add("verify", note, self.cabinet, outcome, **given)
        self.cabinet = handed_back(self.cabinet, left)

    def judge(self, note, order, outcome=15, **other):
        """A check by a cabinet that is fresh but for what is named. The story's cabinet stays."""
        own = self.cabinet
        self.cabinet = own._replace(**{"highest": 0, "marks": 0, **other})
        self.verify(note, order, outcome)
        self.cabinet = own

    def number(self, text, leaf=0):
        return message_number(self.p, R, SEED, self.root, leaf, text)

    def damage(self, order):
        """One thing is other than it was signed."""
        text, signature = order
        self.judge("a text in which one byte is another", (flipped(text, -1), signature))
        self.judge("a text that is longer by a byte", (text + b"\0", signature))
        self.judge("a cabinet with another root", order, root=flipped(self.root, -1))
        self.judge("a cabinet with another public seed", order, seed=flipped(SEED, 0))
        end = 20 + 16 * self.p.l
        onward = signature[:20] + self.onward(text, signature) + signature[36:]
        for least_height, note, changed in [
            (0, "R changed", flipped(signature, 4)),
            (0, "the first value changed", flipped(signature, 20)),
            (0, "the last value changed", flipped(signature, end - 1)),
            (0, "two values exchanged", exchanged(signature, 20)),
            (0, "a value hashed onward", onward),
            (1, "the lowest sibling changed", flipped(signature, end)),
            (1, "the highest sibling changed", flipped(signature, -1)),
            (1, "another leaf named", flipped(signature, 3)),
            (2, "two siblings exchanged", exchanged(signature, end)),
        ]:
            if self.p.h >= least_height:
                self.judge(note, (text, changed))

    def onward(self, text, signature):
        """The value of chain 0 one step higher than it is shown, as a forger could make it."""
        leaf = int.from_bytes(signature[:4], "big")
        number = message_number(self.p, signature[4:20], SEED, self.root, leaf, text)
        height = row_of(*self.p[:3], number)[0]
        return signatures.climb(SEED, leaf, 0, height, height + 1, signature[20:36])


def exchanged(data, at):
    """Two values or siblings from there on in the other order."""
    return data[:at] + data[at + 16 : at + 32] + data[at : at + 16] + data[at + 32 :]


def gate_story(p):
    """The key of examples/order.c: its first two leaves, then its last two."""
    story = Story(p)
    story.sign("no leaf is reserved yet", ORDER, R, 20)
    first = story.order("the first order of a fresh key", ORDER, R)
    story.sign("the leaf has signed, and no other is reserved", LONG_ORDER, derived("gate 1"), 20)
    story.reserve("leaf 1 is reserved")
    story.reserve("leaf 1 has not signed yet", 21)
    second = story.sign("a text of 200 bytes", LONG_ORDER, derived("gate 1"))
    third = story.order("a text of any bytes", b"\0\xff\n\r", derived("gate 1022"), 1022)
    story.reserve("leaf 1023 is reserved, the last")
    story.reserve("the last leaf has not signed yet: 21 and not 12", 21)
    last = story.sign("the last leaf, a text of one byte", b"0", derived("gate 1023"))
    story.spent(ORDER, derived("gate 1024"))
    story.verify("the first order", first)
    story.verify("the first order again: a replay", first, 14)
    story.verify("the second order", second)
    story.verify("the last leaf: leaves may be skipped", last)
    story.verify("a leaf that was skipped, and is one below the highest", third)
    story.verify("the same order again: a replay", third, 14)
    story.verify("the second order again, now far below the highest", second, 14)
    story.judge("14: the last leaf is the highest and marked", last, 14, highest=1023, marks=1)
    story.judge("the text of the C example, changed", (OTHER_ORDER, first[1]))
    story.judge("the text of another order", (first[0], second[1]))
    story.damage(first)
    return story.vectors


def worked_story():
    """The order of docs/INTERFACE.md."""
    story = Story(WORKED)
    order = story.order("the worked order of the interface page", ORDER, R, LEAF)
    story.verify("the worked order", order)
    story.verify("the worked order again: a replay", order, 14)
    return story.vectors


def order_shapes():
    """Of each count the shape that takes the fewest hashes."""
    counts = [count for power in POWERS for count in shapes.neighbours(power)]
    return [shapes.shortest(count) for count in counts if count >= signatures.LEAST_COUNT]


def bits_story(shape, edition):
    """One order at h = 0, with a number of few bits or of many, then 12 and 20."""
    story = Story(Profile(*shape, 0, edition))
    count = count_of(story.p)
    note = f"the count is {count}, the number has {number_bits(count)} bits"
    order = story.order(note, ORDER, R)
    story.reserve("one order, then 12", 12)
    story.sign("one order, then 20", OTHER_ORDER, derived("bits"), 20)
    story.verify("a text with another number", (OTHER_ORDER, order[1]), 15)
    story.verify(note, order)
    story.verify("the order again: a replay", order, 14)
    return story.vectors


def same_number_story():
    """Where numbers have 8 bits, a text soon has the number of another, and is taken with its
    signature: such a profile is for trials."""
    story = Story(Profile(*order_shapes()[0], 0, 1))
    order = story.order("an order whose number has 8 bits", ORDER, R)
    texts = (b"sill level %d.4 m until 18:00" % level for level in itertools.count(3))
    other = next(text for text in texts if story.number(text) == story.number(ORDER))
    story.verify("another text that has the same number", (other, order[1]))
    return story.vectors


def scant_story(shape, edition):
    """A count of 255: what 7 bits would sign is refused."""
    p = Profile(*shape, 1, edition)
    story = Story(p)
    story.key = story.key._replace(next=1)
    story.reserve("leaf 1 is reserved")
    story.sign("19: the count is 255", ORDER, R, 19)
    story.sign("19, whatever the text and R are", OTHER_ORDER, derived("scant"), 19)
    story.reserve("a sign refused keeps the mark", 21)
    signature = signature_of(p, SEED, SECRET, 1, R, story.number(ORDER, 1))
    story.verify("19: a number of 7 bits leads to the root", (ORDER, signature), 19)
    story.verify("19: it does not lead to the root", (ORDER, flipped(signature, -1)), 19)
    story.cabinet = story.cabinet._replace(highest=1, marks=1)
    story.verify("the leaf is passed", (ORDER, signature), 14)
    return story.vectors


def earlier_story(p):
    """An order of earlier days, when every number had 128 bits, from its sheet to the verdict; the
    same text and R today; and an R whose number was not below the count then."""
    story, count, text = Story(p), count_of(p), ORDER

    def earlier(r):
        return first_bits(order_digest(p, r, SEED, story.root, 0, text), MOST_BITS)

    def first_r(name, holds):
        tried = (derived(f"{name} {tries}") for tries in itertools.count())
        return next(r for r in tried if holds(earlier(r)))

    r, bits = first_r("earlier", lambda number: number < count), number_bits(count)
    signature = signature_of(p, SEED, SECRET, 0, r, earlier(r))
    given = {"sheet": right_sheet(p, signature, text), "message": len(text)}
    note = "the sheet of an order of earlier days"
    story.add("read_sheet", note, p, 0, **given, signature=len(signature))
    note = f"the order of earlier days: its number has {bits} bits today"
    story.verify(note, (text, signature), 0 if bits == MOST_BITS else 15)
    if bits < MOST_BITS:
        # its leaf is used up
        order = story.order("the same text and R today, with the next leaf", text, r, 1)
        story.verify("the order of today", order)
        r = first_r("refused earlier", lambda number: number >= count)
        order = story.order("an R whose number of earlier days is not below the count", text, r)
        story.verify("the order with this R", order)
    return story.vectors


def full_story(p, name):
    """All leaves of a key, every check, and the key spent."""
    story = Story(p, derived(name))
    orders = []
    for leaf in range(2**p.h):
        text, r = f"order {leaf} of {name}".encode(), derived(f"{name} {leaf}")
        orders.append(story.order(f"leaf {leaf}", text, r))
    story.spent(ORDER, R)
    for leaf, order in enumerate(orders):
        story.verify(f"leaf {leaf} with another text", (ORDER, order[1]), 15)
        story.verify(f"leaf {leaf}", order)
        story.verify(f"leaf {leaf} again: a replay", order, 14)
    story.damage(orders[-1])
    return story.vectors


# The shape of few steps with the least count that signs, under a tree of 128 leaves.
WINDOW_PROFILE = Profile(7, 3, 5, 7, 1)
# Leaves in the order of their arrival by two routes, with what is answered and why.
ARRIVALS = [
    (31, 0, "the first to arrive, though not the first signed"),
    (0, 0, "31 below the highest"),
    (0, 14, "a replay"),
    (30, 0, "one below the highest"),
    (32, 0, "one above the highest: the mark of leaf 0 falls away"),
    (0, 14, "32 below the highest now"),
    (31, 14, "a replay of what was the highest"),
    (1, 0, "31 below the highest"),
    (63, 0, "31 above the highest"),
    (31, 14, "32 below the highest, and accepted before"),
    (33, 0, "30 below the highest"),
    (32, 14, "31 below the highest, and accepted before"),
    (95, 0, "32 above the highest: all other marks fall away"),
    (63, 14, "32 below the highest"),
    (64, 0, "31 below the highest"),
    (127, 0, "32 above the highest"),
    (95, 14, "32 below the highest"),
    (126, 0, "one below the highest"),
]


def arrivals_story(p):
    """An order for each leaf that arrives, signed in the order of the leaves. Each check goes on
    with the cabinet that the one before left."""
    story, orders = Story(p, derived("two routes")), {}
    for leaf in sorted({leaf for leaf, _, _ in ARRIVALS}):
        given = f"order {leaf} by two routes".encode(), derived(f"two routes {leaf}")
        orders[leaf] = story.order(f"leaf {leaf}", *given, leaf)
    for leaf, outcome, note in ARRIVALS:
        story.verify(f"leaf {leaf}, {note}", orders[leaf], outcome)
    other = orders[126][0], orders[64][1]
    story.verify("leaf 64 with another text, too far below: 14 and not 15", other, 14)
    return story.vectors


# A leaf that is above the highest, or is marked, has some of the distances here, and any other leaf
# every one.
SOME_DISTANCES = (0, 1, 2, 3, 8, 15, 16, 24, 30, 31, 32, 33, windows.FAR)
WINDOW_KINDS = [
    ((name, span), answer)
    for (name, span), answer in windows.KINDS
    if name not in ("above", "not above, marked") or span[0] in SOME_DISTANCES
]
SOME_MARKS = 0b1010_0100_1001_0010_1100_1011_0111_0101
# The leaf, the highest, the marks and the answer.
MOST, ALL, LAST = windows.MOST_WORD, windows.ALL_MARKS, windows.LAST_MARK
ODD_STATES = [
    *[(7, 0, 0, 0), (64, MOST, 0, 0), (64, MOST, 1, 14), (64, MOST, ALL, 14)],
    *[(64, 60 + 2**bits, 1, 14) for bits in (8, 16, 31)],
    *[(64, 60, ALL, 0), (64, 60, 2, 0), (64, 60, LAST, 0), (64, 95, LAST, 14), (7, 9, 2**20, 0)],
    *[(7, 7, LAST, 0), (7, 5, 2**20 + 1, 0), (7, 9, 2**20 + 4, 14), (0, 0, 2, 0)],
]


def windows_story():
    """Checks by cabinets of any highest leaf and marks: every distance, and odd states."""
    story, orders = Story(WINDOW_PROFILE, derived("any window")), {}
    for leaf in (0, 7, 64):
        orders[leaf] = story.order(f"leaf {leaf}", ORDER, derived(f"window {leaf}"), leaf)
    for (name, span), answer in WINDOW_KINDS:
        if span:
            distance, own = span[0], 2 ** span[0]
            highest = 64 - distance if name.endswith("above") else 64 + distance
            marks = {"not above, not marked": ALL & ~own, "not above, marked": own}
            marks = 0 if name.startswith(windows.NO_MARK) else marks.get(name, SOME_MARKS)
            note = f"{answer}: {name}, distance {distance}"
            story.judge(note, orders[64], answer, highest=highest, marks=marks)
    for leaf, highest, marks, answer in ODD_STATES:
        names = windows.odd(highest, marks) + windows.cut(highest, marks, leaf)
        note = f"{answer} to leaf {leaf}: {'; '.join(names)}"
        story.judge(note, orders[leaf], answer, highest=highest, marks=marks)
    return story.vectors


def crossed_story():
    """One leaf signs in both editions, as no desk may; it has two bytes that differ, so that their
    order shows. A cabinet judges by its own digest alone. So it refuses an order of the other
    edition by 15; but a text that begins with the leaf's four bytes has in edition 1 the digest
    that the bytes behind them have in edition 2. The last digests are taken over the leaf in a
    wrong way, or without it."""
    leaf, first, second = 0x0203, Story(GATE), Story(GATE_2)
    place, root = leaf.to_bytes(4, "big"), first.root
    orders = [story.order(f"leaf {leaf}", ORDER, R, leaf) for story in (first, second)]
    for story, own, other in [(first, *orders), (second, *orders[::-1])]:
        story.verify("the other edition's order", other, 15)
        story.verify("its own edition's order", own)
        story.verify("the other edition's order, now with a leaf that is marked", other, 14)
    spelt = first.order("a text that begins with the leaf's four bytes", place + ORDER, R, leaf)
    second.judge("this order in edition 2, the text without the leaf", (ORDER, spelt[1]), 0)
    second.judge("this order in edition 2, the text as it is", spelt)
    with_leaf = place + ORDER, orders[1][1]
    first.judge("edition 2's order, the leaf in front of its text", with_leaf, 0)
    for note, digested in {
        "without the leaf": R + SEED + root + ORDER,
        "with the leaf's least byte first": R + SEED + root + place[::-1] + ORDER,
        "with two bytes of the leaf": R + SEED + root + place[2:] + ORDER,
        "with the leaf in front of R": place + R + SEED + root + ORDER,
        "with the leaf in front of the public seed": R + place + SEED + root + ORDER,
        "with the leaf in front of the root": R + SEED + place + root + ORDER,
        "with the leaf behind the text": R + SEED + root + ORDER + place,
        "with the next leaf": R + SEED + root + (leaf + 1).to_bytes(4, "big") + ORDER,
    }.items():
        number = first_bits(hashlib.sha256(digested).digest(), MOST_BITS)
        signature = signature_of(GATE_2, SEED, SECRET, leaf, R, number)
        second.judge(f"signed by the digest {note}", (ORDER, signature))
    return first.vectors + second.vectors


def orders_family():
    yield from gate_story(GATE)
    yield from worked_story()
    for shape in order_shapes():
        yield from bits_story(shape, 1)
    yield from same_number_story()
    for shape in shapes.nearly_signing():
        yield from scant_story(shape, 1)
    for p in [*(Profile(*shape, 2, 1) for shape in EARLIER), GATE]:
        yield from earlier_story(p)
    yield from arrivals_story(WINDOW_PROFILE)
    yield from windows_story()
    yield from full_story(GATE._replace(h=0), "one leaf")
    yield from full_story(Profile(40, 11, 200, 1, 1), "narrow")
    yield from full_story(Profile(40, 16, 300, 2, 1), "longest")
    # in edition 2 what the first has, at fewer shapes
    yield from gate_story(GATE_2)
    for shape in order_shapes()[::6]:
        yield from bits_story(shape, 2)
    yield from scant_story(shapes.nearly_signing()[0], 2)
    yield from arrivals_story(WINDOW_PROFILE._replace(edition=2))
    yield from full_story(Profile(40, 11, 200, 1, 2), "narrow")
    yield from crossed_story()
