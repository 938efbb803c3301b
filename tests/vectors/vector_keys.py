"""Test vectors of keys: Reserve and Sign with every kind of next leaf and mark, stored keys written
and read, and such as are wrong; and desks that go from fresh through cuts and restarts.
"""

from types import SimpleNamespace

import stored_keys
from answers import key_read
from keys import frame_length
from signatures import EDITIONS, GATE, GATE_2, Profile, SigningKey
from signatures import reserved_key, restarted, signature_length
from stored_keys import HEAD, MARK_DIGITS, NEXT, NEXT_LEAVES, READ_KINDS, SEEDS, SLICES
from vector_calls import ORDER, SECRET, SEED, R, derived, held, vector, vector_and_left
from vector_orders import Story
from zarosnik import table_length

# A shape of few steps that signs, under a tree of one leaf and under one of four.
SHAPE = (7, 3, 5)
HEIGHTS = {"one leaf": 0, "more leaves": 2}
# Places in a frame at which a digit is another or none: the ends of what stands there; and lengths
# that it is cut to.
ENDS = {end for part in (HEAD, SEEDS, NEXT, MARK_DIGITS) for end in (part[0], part[-1])}
ENDS |= {*HEAD, SEEDS[31], SEEDS[32], NEXT[3], 86, 87}
CUT = {0, 1, 2, 12, 43, 44, 84, 85, 86, 87, 88}
# In the place of random numbers: always the first.
FIXED = SimpleNamespace(choice=lambda choices: choices[0])


def counter_vector(operation, kind):
    """By a key under the example's seeds, of this kind."""
    edition, tree, name, mark = kind
    p = Profile(*SHAPE, HEIGHTS[tree], edition)
    key = SigningKey(p, SEED, SECRET, NEXT_LEAVES[name][0](p.h), mark)
    given = {"table": table_length(p.l, p.s), "signature": signature_length(p)}
    given |= {"r": R, "message": ORDER, "frame": frame_length(p) + 3}
    answer, told = stored_keys.answer_to(operation, kind), stored_keys.counter_told(kind)
    if operation in ("reserve", "sign"):
        return held(answer, vector(operation, f"{answer}: {told}", key, **given))
    if operation == "write_key":
        return held(0, vector(operation, f"mark {answer:02}: {told}", key, **given))
    made = vector(operation, f"mark {answer}: {told}", frame=stored_keys.marked_frame(key))
    if made["out"]["mark"] != answer:
        raise ValueError(f"mark {answer} is not read: {made}")
    return held(0, made)


# What is read: of the kinds at each place and each length, some.
SOME = {"no digit at": ENDS, "another digit at": ENDS, "cut to": CUT}
READ = [kind for kind in READ_KINDS if kind[1] not in SOME or kind[2] in SOME[kind[1]]]


class Desk(Story):
    """A key whose frame is stored."""

    def __init__(self, p, name):
        super().__init__(p, derived(name))
        self.name, self.frame, self.orders = name, None, []

    def store(self, note):
        left = self.add("write_key", note, self.key, 0, frame=frame_length(self.p))
        self.frame = left["frame"]

    def restart(self, note):
        self.key = restarted(key_read(self.add("read_key", note, None, 0, frame=self.frame)))

    def issue(self, note):
        leaf = self.key.next - 1
        text, r = f"order {leaf} of {self.name}".encode(), derived(f"{self.name} {leaf}")
        self.orders.append(self.sign(note, text, r))


def cuts_story(p):
    """Power fails at each step: before a store has ended, behind it, and when the leaf has signed.
    No leaf signs twice, and all that was signed is accepted."""
    desk = Desk(p, f"cuts {p.edition}")
    desk.store("a fresh key is stored")
    desk.reserve("leaf 0 is reserved")
    desk.restart("power failed before the store had ended: the old frame")
    desk.reserve("leaf 0 is reserved again, since it has not signed")
    desk.store("leaf 0 is marked in the stored key")
    desk.reserve("leaf 0 has not signed yet", 21)
    desk.issue("leaf 0 signs")
    desk.restart("power failed when the leaf had signed: the mark is read, and cleared")
    desk.sign("no mark stands after a restart", ORDER, R, 20)
    desk.reserve("leaf 1 is reserved")
    desk.store("leaf 1 is marked in the stored key")
    desk.restart("power failed before the leaf signed: the mark is read, and cleared")
    desk.reserve("leaf 2 is reserved; leaf 1 is lost")
    desk.store("leaf 2 is marked in the stored key")
    desk.sign("16: no text, the mark stays", b"", R, 16)
    desk.issue("leaf 2 signs")
    desk.reserve("leaf 3 is reserved, the last")
    desk.store("the last leaf is marked in the stored key")
    desk.issue("leaf 3 signs")
    desk.restart("the last leaf has signed: the mark is read, and cleared")
    desk.spent(ORDER, R)
    desk.store("the spent key is stored")
    for order in desk.orders:
        desk.verify(f"the order of leaf {int.from_bytes(order[1][:4], 'big')}", order)
    return desk.vectors


def keys_family():
    for wanted in stored_keys.WANTED:
        yield counter_vector(*wanted)
    for edition, longer in stored_keys.SLICED:
        p = Profile(*SHAPE, 2, edition)
        key, size = reserved_key(p, SEED, SECRET, 1), frame_length(p) + longer
        note = f"edition {edition}, a slice of {size} bytes"
        yield held(SLICES[longer], vector("write_key", note, key, frame=size))
    yield held(6, vector("write_key", "edition 1, no slice", key._replace(profile=GATE), frame=0))
    for p in (GATE, GATE_2):
        for note, key in [
            ("a fresh key of the gate profile", SigningKey(p, SEED, SECRET, 0, 0)),
            ("its first leaf is reserved", reserved_key(p, SEED, SECRET, 0)),
            ("its last leaf is reserved", reserved_key(p, SEED, SECRET, 1023)),
        ]:
            made, left = vector_and_left("write_key", note, key, frame=frame_length(p))
            yield held(0, made)
            yield held(0, vector("read_key", note, frame=left["frame"]))
    for kind in READ:
        key, answer = reserved_key(GATE, SEED, SECRET, 0x0102), READ_KINDS[kind]
        frame = stored_keys.drawn_frame(FIXED, key, kind).before
        made = vector("read_key", stored_keys.told_frame(kind), frame=frame)
        yield made if answer is None else held(answer, made)
    for edition in EDITIONS:
        yield from cuts_story(Profile(*SHAPE, 2, edition))
