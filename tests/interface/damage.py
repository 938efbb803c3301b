"""Signed orders and sheets, and what may be wrong with them."""

import editions
from memory import Memory
from sheets import hex_line, read_frames
from signatures import climb, climb_path, count_of, key_of_leaf, message_number, order_digest
from signatures import pieces, recovered, revealed
from zarosnik import MOST_BITS, first_bits, row_of

# Digits, endings and their neighbours.
ODD_BYTES = b"0Aa/:@G`g \x00\n\r\x8a\xff"


def flipped(pick, data):
    """One bit is another."""
    at = pick.randrange(8 * len(data))
    return (int.from_bytes(data, "little") ^ 1 << at).to_bytes(len(data), "little")


def swapped(pick, parts):
    a, b = pick.sample(range(len(parts)), 2)
    parts = list(parts)
    parts[a], parts[b] = parts[b], parts[a]
    return parts


class Order:
    """A signed order that a verifier with its profile, seed and root takes; with a count below 256
    nothing but 19 refuses it. The siblings are any, and the root is climbed from them: no tree is
    walked, whatever its height."""

    def __init__(self, pick, p):
        self.pick, self.p = pick, p
        self.seed, self.secret, self.r = (pick.randbytes(16) for _ in range(3))
        self.text = pick.randbytes(pick.choice([1, 200, pick.randrange(1, 201)]))
        self.leaf = pick.randrange(1 << p.h)
        self.siblings = [pick.randbytes(16) for _ in range(p.h)]
        key = key_of_leaf(p.l, p.w, self.seed, self.secret, self.leaf)
        self.root = climb_path(self.seed, self.leaf, key, self.siblings)
        self.sign(self.number())

    def number(self, p=None):
        """By its own profile, or by another."""
        return message_number(p or self.p, self.r, self.seed, self.root, self.leaf, self.text)

    def sign(self, number):
        self.row = row_of(*self.p[:3], number)
        self.values = pieces(revealed(self.p, self.seed, self.secret, self.leaf, number))

    def sign_as_earlier(self):
        """By the number of earlier days, the digest's first 128 bits, with an R for which it is
        below the count."""
        while True:
            digest = order_digest(self.p, self.r, self.seed, self.root, self.leaf, self.text)
            number = first_bits(digest, MOST_BITS)
            if number < count_of(self.p):
                return self.sign(number)
            self.r = self.pick.randbytes(16)

    def sign_as_other_edition(self):
        """Where numbers are few, this may be the same."""
        self.sign(self.number(self.p._replace(edition=editions.other(self.p.edition))))

    def leads_to_root(self):
        key, _ = recovered(self.p, self.seed, self.leaf, self.number(), b"".join(self.values))
        return climb_path(self.seed, self.leaf, key, self.siblings) == self.root

    def signature(self):
        head = self.leaf.to_bytes(4, "big") + self.r
        return head + b"".join(self.values) + b"".join(self.siblings)

    def damage(self):
        """One thing is other than it was signed. Where numbers are few, another text or R may have
        the same one and do no harm: then one more thing is."""
        changes = [self.flip_bit, self.other_text, self.other_root, self.step_on]
        changes += [lambda: self.flip(self.values), self.sign_as_other_edition]
        if self.p.l >= 2:
            changes += [lambda: self.swap("values")]
        if self.p.h >= 1:
            changes += [lambda: self.flip(self.siblings), self.other_leaf]
        if self.p.h >= 2:
            changes += [lambda: self.swap("siblings")]
        while self.leads_to_root():
            self.pick.choice(changes)()

    def flip_bit(self):
        name = self.pick.choice(["seed", "root", "r", "text"])
        setattr(self, name, flipped(self.pick, getattr(self, name)))

    def flip(self, parts):
        at = self.pick.randrange(len(parts))
        parts[at] = flipped(self.pick, parts[at])

    def swap(self, name):
        setattr(self, name, swapped(self.pick, getattr(self, name)))

    def other_root(self):
        """Signed for a root that is one bit off: just this bit is wrong in the end."""
        self.root = flipped(self.pick, self.root)
        self.sign(self.number())

    def step_on(self):
        """Hashes one value onward, as a forger could."""
        at = self.pick.randrange(len(self.values))
        low = self.row[at]
        self.values[at] = climb(self.seed, self.leaf, at, low, low + 1, self.values[at])

    def other_text(self):
        longer = self.text + self.pick.randbytes(1)
        self.text = self.text[:-1] if len(longer) > 200 else longer

    def other_leaf(self):
        self.leaf ^= 1 << self.pick.randrange(self.p.h)


def lines_of(sheet):
    return sheet.splitlines(keepends=True)


def other_byte(pick, sheet):
    """Flipped in one bit, another, one more or one less."""
    at, odd = pick.randrange(len(sheet)), bytes([pick.choice(ODD_BYTES)])
    parts = pick.choice([(odd, at + 1), (odd, at), (b"", at + 1)])
    return pick.choice([flipped(pick, sheet)] + [sheet[:at] + parts[0] + sheet[parts[1] :]] * 3)


def cut(pick, sheet):
    """Behind a whole line or anywhere, often just before the end."""
    lines = lines_of(sheet)
    whole = b"".join(lines[: pick.randrange(len(lines))])
    return pick.choice([whole, sheet[: pick.randrange(len(sheet))], sheet[:-1], sheet[:-2]])


def more(pick, sheet):
    """Something stands after the last line."""
    return sheet + pick.choice([bytes([pick.choice(ODD_BYTES)]), lines_of(sheet)[-1], sheet])


def other_lines(pick, sheet):
    """A line is missing, doubled, in another's place or spelt in another way."""
    lines = lines_of(sheet)
    at = pick.randrange(len(lines))
    line = lines[at]
    spelt = [b"", line + line, line.lower(), line[:-1] + b"\r\n", b"\n", b"\n" + line]
    changed = lines[:at] + [pick.choice(spelt)] + lines[at + 1 :]
    return b"".join(pick.choice([changed, swapped(pick, lines)]))


def other_frame(pick, sheet):
    """A frame with another kind, chain, height or profile, too short or too long."""
    lines = lines_of(sheet)
    at = pick.choice([1, len(lines) - 1, pick.randrange(len(lines))])
    frame = bytes.fromhex(lines[at].decode())
    place = pick.choice([0, 1, pick.randrange(len(frame))])
    another = frame[:place] + pick.randbytes(1) + frame[place + 1 :]
    sizes = [frame[:1], frame[:-1], frame + pick.randbytes(1), frame[:1] + pick.randbytes(201)]
    lines[at] = hex_line(pick.choice([another, another, *sizes]))
    return b"".join(lines)


def wrong_sheet(pick, p, sheet):
    """A sheet with a wrong line. Behind one that was cut off stands the rest."""
    changes = [other_byte, cut, more, other_lines, other_frame]
    changes += [lambda pick, sheet: editions.with_last(p, sheet, pick.choice(editions.LAST))]
    while True:
        wrong = pick.choice(changes)(pick, sheet)
        if read_frames(p, wrong)[0]:
            return Memory(wrong, behind=sheet[len(wrong) :] if sheet.startswith(wrong) else b"")
