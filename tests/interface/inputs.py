"""Random inputs for one call of the C interface, with just those causes of refusal that are asked
for: none, one, or several at once, of which the first in the document's order must be told.
"""

import hashlib

import comparisons
import editions
import shapes
import stored_keys
import windows
import written_sheets
from calls import call
from causes import CUT, CUTS, PAST_WORD, WIDE
from damage import Order, flipped, wrong_sheet
from memory import Memory
from operations import LENT, MOST_HASHED, ORDERS, TABLE, parameters
from keys import frame_length
from sheets import right_sheet, sheet_length
from signatures import EDITIONS, Profile, SigningKey, Verifier, revealed, signature_length
from zarosnik import MOST_BITS, row_of, table_length, ways

# Slices whose length may pass 32 bits, and the cause of refusal where this is too long. Cut to 32
# bits, such a length would be right; where longer is right too, it would be too short.
FAR = [
    (operation, p.name, [p.cause] if p.read_only else [])
    for operation in TABLE
    for p in parameters(operation)
    if p.has_length
]

PAST_NUMBER = 1 << 160
# So many hashes may go into one tree, so many words into the table of a profile out of its limits.
MOST_HASHES = 6000
MOST_WORDS = 150000


def signable_shape(pick):
    """Any number of bits is as likely as any other but 128, which all large counts have."""
    bits = pick.choice([MOST_BITS] + 3 * [pick.randrange(shapes.LEAST_BITS, MOST_BITS + 1)])
    return pick.choice(shapes.by_bits()[bits])


def any_shape(pick):
    """Mostly small, and up to every limit."""
    if pick.random() < 0.7:
        l, w = pick.randrange(1, 9), pick.randrange(2, 7)
    else:
        l = pick.choice([1, 40, pick.randrange(1, 41)])
        w = pick.choice([2, 16, pick.randrange(2, 17)])
    most = l * (w - 1)
    return l, w, pick.choice([0, most, most // 2, pick.randrange(most + 1)])


def cheap_height(pick, l, w):
    """Small enough for all leaves to be hashed."""
    return pick.choice([h for h in range(11) if (l * w) << h <= MOST_HASHES])


class Inputs:
    """Draws the arguments of one call: one method an operation. Where a number of the profile is to
    be wrong, slices have the sizes that go with it, as far as it can be, or with what a cut makes
    of it: a library that takes such a profile is not saved by a slice that is too short. The wrong
    numbers may all be asked to be wide, in one way. The edition may be given, right or wrong."""

    def __init__(
        self, pick, operation, causes=(), far=None, wide=None, profile=None, edition=None
    ):
        self.pick, self.operation, self.causes = pick, operation, set(causes)
        self.far, self.wide, self.edition = far, wide, edition
        self.good = profile or self.good_profile()
        self.p = self.given_profile()
        # what the narrowest parameters would make of it
        self.sized = Profile(*(n % (1 << bits) for n, bits in zip(self.p, CUTS.values())))

    def good_profile(self):
        pick, operation = self.pick, self.operation
        if operation == "rank" and 10 in self.causes and pick.random() < 0.3:
            # room for a sum that is the same in its low byte
            l, w, s = pick.randrange(20, 41), 16, pick.randrange(40)
        elif operation not in ORDERS:
            l, w, s = any_shape(pick)
        else:
            # too few rows for an order; often just too few
            scant = lambda: pick.choice(pick.choice([shapes.scant(), shapes.nearly_signing()]))
            l, w, s = scant() if 19 in self.causes else signable_shape(pick)
        # a library may hash the tree before it refuses by 19, and before no other refusal
        hashed = operation in ("root", "sign") and self.causes <= {19}
        # under one leaf no mark stands before the last leaf is reserved
        least = 1 if 21 in self.causes and 12 not in self.causes else 0
        h = cheap_height(pick, l, w) if hashed else pick.randrange(least, 11)
        right = self.edition in EDITIONS
        return Profile(l, w, s, h, self.edition if right else pick.choice(EDITIONS))

    def given_profile(self):
        """Drawn again where l and w are so large that no s of 32 bits is over their largest sum."""
        pick, good = self.pick, self.good
        while True:
            l = self.given(1, 1, 41, [0, 41, 42, 255, pick.randrange(41, 256)])
            w = self.given(2, 2, 17, [0, 1, 17, 255, pick.randrange(17, 256)])
            over = max(0, l * (w - 1) + 1)
            # one of them has the low byte of the good sum
            s = self.given(3, 0, over, [over, over + (good.s - over) % 256, 65535])
            h = self.given(4, 0, 11, [11, 12, good.h + 32, 255, pick.randrange(11, 256)])
            edition = self.given(22, 1, 3, [0, 3, 4, 255, pick.randrange(3, 256)])
            if 22 in self.causes and self.edition is not None:
                edition = self.edition
            if s is not None:
                return Profile(l, w, s, h, edition)

    def given(self, cause, low, end, near):
        """A number of the profile. Where it is to be wrong, it is not one from low to end - 1, but
        near to these, or wide. None where there is none."""
        pick, good, bits = self.pick, self.good[list(CUTS).index(cause)], CUTS[cause]
        if cause not in self.causes:
            return good
        if isinstance(self.wide, int):
            return self.wide
        least = max(1, -(-(end - good) // (1 << bits)))
        numbers = [good + (k << bits) for k in (least, 1, pick.randrange(1 << 32 - bits))]
        numbers += [good + (1 << 16), good + (1 << 31)]
        if self.wide != CUT:
            numbers += 2 * near + [*WIDE[1:], pick.randrange(PAST_WORD)]
        wrong = [n for n in numbers if not low <= n < end and n < PAST_WORD]
        return pick.choice(wrong) if wrong else None

    def filling(self, size):
        return hashlib.shake_128(b"%d" % self.pick.getrandbits(32)).digest(size)

    def seed(self):
        return self.pick.choice([bytes(16), b"\xff" * 16] + [self.pick.randbytes(16)] * 6)

    def lent(self, name, right, unit=1):
        """A slice to write to: too short where that is the cause, else right or longer."""
        pick, cause = self.pick, LENT[self.operation][name]
        if self.far == name:
            return Memory(self.filling(unit * (right + 1)), unit).stretch(PAST_WORD + right - 1)
        if cause in self.causes:
            sizes = [right - 1, right - 1, 0, pick.randrange(max(1, right))]
        else:
            sizes = [right, right, right + 1, right + pick.randrange(2, 40)]
        size = max(0, pick.choice(sizes))
        return Memory(self.filling(unit * size), unit, spare=max(0, size - right))

    def exact(self, name, content):
        """A slice to read from, which has one right length."""
        pick, right = self.pick, len(content)
        cause = next(p.cause for p in parameters(self.operation) if p.name == name)
        if self.far == name:
            return Memory(content + pick.randbytes(1)).stretch(PAST_WORD + right)
        if cause not in self.causes:
            return Memory(content)
        sizes = {0, right - 1, right + 1, right - 16, right + 16, pick.randrange(2 * right + 2)}
        size = pick.choice(sorted(size for size in sizes if size >= 0 and size != right))
        return Memory((content + pick.randbytes(right + 17))[:size], behind=content[size:])

    def table(self):
        sized, good = (table_length(p.l, p.s) for p in (self.sized, self.good))
        return self.lent("table", sized if sized <= MOST_WORDS else good, unit=4)

    def number(self):
        pick, count = self.pick, ways(self.good.w, self.good.l, self.good.s)
        if 7 not in self.causes:
            return pick.choice([0, count - 1, pick.randrange(count)])
        # some are below the count but for one bit in a higher word
        numbers = [pick.randrange(count) | 1 << 32 * k for k in range(5)]
        numbers += [count, count, count + 1, PAST_NUMBER - 1, pick.randrange(count, PAST_NUMBER)]
        return pick.choice([n for n in numbers if n >= count])

    def leaf(self):
        pick, end = self.pick, 1 << self.good.h
        if 11 not in self.causes:
            return pick.choice([0, end - 1, pick.randrange(end)])
        leaves = [end, end, end + 1, PAST_WORD - 1, pick.randrange(end, PAST_WORD)]
        # good but for one bit, which a cut may drop
        bits = [pick.randrange(self.good.h, 32), pick.randrange(16, 32), 16]
        return pick.choice(leaves + [pick.randrange(end) | 1 << bit for bit in bits])

    def message(self):
        pick = self.pick
        right = pick.choice([1, 200, pick.randrange(1, 201)])
        wrong = pick.choice([0, 0, 201, 201, 202, 256, 257, 65537])
        if self.far == "message":
            return Memory(self.filling(201)).stretch(PAST_WORD + right)
        return Memory(self.filling(wrong if 16 in self.causes else right))

    def padded(self, content, right):
        """Content with the length that the given profile asks for."""
        return (content + self.pick.randbytes(right))[:right]

    def call(self, thing=None, **given):
        return call(self.pick, self.operation, thing, **given)

    def hash(self):
        pick = self.pick
        edges = [55, 56, 63, 64, 65, 119, 120, 127, 128]
        size = pick.choice([0, 1, pick.choice(edges), pick.randrange(400), MOST_HASHED])
        if 18 in self.causes:
            over = MOST_HASHED + 1
            size = over + pick.choice([0, 0, 1, 64, over, pick.randrange(70000)])
        data = Memory(self.filling(size))
        return self.call(data=data.stretch(PAST_WORD + pick.randrange(100)) if self.far else data)

    def count(self):
        return self.call(self.p, table=self.table())

    def unrank(self):
        row = self.lent("row", self.sized.l)
        return self.call(self.p, number=self.number(), table=self.table(), row=row)

    def rank(self):
        row = row_of(*self.good[:3], self.number())
        if 10 in self.causes:
            row = self.other_sum(row)
        if 9 in self.causes:
            at, w = self.pick.randrange(len(row)), self.good.w
            wide = self.pick.choice([w, 255, self.pick.randrange(w, 256)])
            row = row[:at] + bytes([wide]) + row[at + 1 :]
        row = self.exact("row", self.padded(row, self.sized.l))
        return self.call(self.p, row=row, table=self.table())

    def other_sum(self, row):
        """One length is more or less by 1, or the row's sum is another with the same low byte."""
        (l, w, s), at = self.good[:3], self.pick.randrange(len(row))
        if s + 256 <= l * (w - 1) and self.pick.random() < 0.5:
            return row_of(l, w, s + 256, self.pick.randrange(ways(w, l, s + 256)))
        by = 1 if row[at] == 0 or row[at] < w - 1 and self.pick.random() < 0.5 else -1
        return row[:at] + bytes([row[at] + by]) + row[at + 1 :]

    def compare(self):
        first, second = comparisons.drawn(self.pick)
        return self.call(first=first, second=second)

    def leaf_key(self):
        return self.call(self.key(), leaf=self.leaf())

    def root(self):
        return self.call(self.key())

    def one_time_sign(self):
        values, key = self.lent("values", 16 * self.sized.l), self.key()
        given = {"leaf": self.leaf(), "number": self.number(), "table": self.table()}
        return self.call(key, **given, values=values)

    def one_time_recover(self):
        """Values as signed, with a bit flipped, or any."""
        p, seed, leaf, number = self.good, self.seed(), self.leaf(), self.number()
        values = self.pick.randbytes(16 * p.l)
        if 7 not in self.causes and self.pick.random() < 0.7:
            values = revealed(p, seed, self.seed(), leaf, number)
            if self.pick.random() < 0.5:
                values = flipped(self.pick, values)
        values = self.exact("values", self.padded(values, 16 * self.sized.l))
        given = {"public_seed": seed, "leaf": leaf, "number": number, "values": values}
        return self.call(self.p, **given, table=self.table())

    def key(self, counter=(0, 0)):
        return SigningKey(self.p, self.seed(), self.seed(), *counter)

    def reserve(self):
        counts, spent = 21 in self.causes, 12 in self.causes
        return self.call(self.key(stored_keys.drawn(self.pick, self.good.h, counts, spent)))

    def sign(self, counter=None):
        """Here and below, with what is drawn unless it is given: a next leaf and a mark."""
        drawn = stored_keys.drawn(self.pick, self.good.h, 20 not in self.causes)
        key = self.key(drawn if counter is None else counter)
        signature = self.lent("signature", signature_length(self.sized))
        given = {"r": self.pick.randbytes(16), "message": self.message(), "table": self.table()}
        return self.call(key, **given, signature=signature)

    def verify(self, order=None, window=None):
        """An order, as it is to be, and the highest leaf and the marks."""
        if order is None:
            order = Order(self.pick, self.good)
            if 15 in self.causes:
                order.damage()
        if 11 in self.causes:
            order.leaf = self.leaf()
        if window is None:
            window = windows.drawn(self.pick, order.leaf, 14 if 14 in self.causes else 0)
        verifier = Verifier(self.p, order.seed, order.root, *window)
        signature = self.padded(order.signature(), signature_length(self.sized))
        signature = self.exact("signature", signature)
        message = self.message() if 16 in self.causes else Memory(order.text)
        return self.call(verifier, message=message, signature=signature, table=self.table())

    def read_sheet(self, last=None):
        """What stands behind s in frame 01."""
        pick, p = self.pick, self.good
        text = pick.randbytes(pick.choice([1, 200, pick.randrange(1, 201)]))
        sheet = right_sheet(p, pick.randbytes(signature_length(p)), text)
        given = Memory(sheet)
        if last is not None:
            given = Memory(editions.with_last(p, sheet, last))
        elif self.far == "sheet":
            given = self.exact("sheet", sheet)
        elif 17 in self.causes:
            given = wrong_sheet(pick, p, sheet)
        signature = self.lent("signature", signature_length(self.sized))
        message = self.lent("message", len(text))
        return self.call(self.p, sheet=given, signature=signature, message=message)

    def write_sheet(self):
        leaf = written_sheets.any_leaf(self.pick, self.good.h).to_bytes(4, "big")
        signature = self.padded(leaf, signature_length(self.sized))
        signature, message = self.exact("signature", signature), self.message()
        sheet = self.lent("sheet", sheet_length(self.sized, len(message.before)))
        return self.call(self.p, signature=signature, message=message, sheet=sheet)

    def read_key(self):
        """Of a right frame, in which a mark may stand that does not count, or of a wrong one."""
        pick, key = self.pick, stored_keys.any_key(self.pick, self.good)
        line = stored_keys.marked_frame(key)
        if self.far == "frame":
            return self.call(frame=self.exact("frame", line))
        if 17 not in self.causes:
            return self.call(frame=line)
        wrong = pick.choice([kind for kind, told in stored_keys.READ_KINDS.items() if told == 17])
        return self.call(frame=stored_keys.drawn_frame(pick, key, wrong))

    def write_key(self):
        key = self.key(stored_keys.drawn(self.pick, self.good.h))
        return self.call(key, frame=self.lent("frame", frame_length(self.sized)))
