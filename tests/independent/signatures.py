"""Leaf key, Root, Reveal, Recover, Reserve, Sign and Check: an implementation of the scope document
and of the later requests that is independent of the library, over hashlib's SHA-256.

A profile is the four numbers l, w, s, h and its edition. No slice is changed: every function
answers with the number of its refusal, or 0, its value, and the slices as the call leaves them.
"""

import hashlib
from collections import namedtuple
from functools import cache

from zarosnik import (
    filled,
    first_bits,
    first_cause,
    number_bits,
    row_of,
    shape_causes,
    ways,
    work_cause,
)

Profile = namedtuple("Profile", "l w s h edition")
# By the second the leaf is in the digest of an order.
EDITIONS = (1, 2)
GATE, GATE_2 = (Profile(34, 16, 255, 10, edition) for edition in EDITIONS)
# The smallest count of a profile that signs orders.
LEAST_COUNT = 256
# So many marks a cabinet has.
WINDOW = 32
ZERO = bytes(16)


def address(kind, first, second, third):
    """22 bytes: layer and tree zero, the type, three fields of 4 bytes."""
    fields = b"".join(field.to_bytes(4, "big") for field in (first, second, third))
    return bytes(1) + bytes(8) + bytes([kind]) + fields


@cache
def seeded(seed):
    return hashlib.sha256(seed + bytes(48))


def tweaked(seed, tweak, data):
    state = seeded(seed).copy()
    state.update(tweak + data)
    return state.digest()[:16]


def chain_start(seed, secret, leaf, chain):
    return tweaked(seed, address(5, leaf, chain, 0), secret)


def climb(seed, leaf, chain, low, high, value):
    """From one height to another; a step is numbered by the height before it."""
    for height in range(low, high):
        value = tweaked(seed, address(0, leaf, chain, height), value)
    return value


def chain_value(seed, secret, leaf, chain, height):
    return climb(seed, leaf, chain, 0, height, chain_start(seed, secret, leaf, chain))


def key_of_tops(seed, leaf, tops):
    return tweaked(seed, address(1, leaf, 0, 0), b"".join(tops))


@cache
def key_of_leaf(l, w, seed, secret, leaf):
    tops = [chain_value(seed, secret, leaf, chain, w - 1) for chain in range(l)]
    return key_of_tops(seed, leaf, tops)


@cache
def node(l, w, seed, secret, height, index):
    if height == 0:
        return key_of_leaf(l, w, seed, secret, index)
    left = node(l, w, seed, secret, height - 1, 2 * index)
    right = node(l, w, seed, secret, height - 1, 2 * index + 1)
    return tweaked(seed, address(2, 0, height, index), left + right)


def root_of(p, seed, secret):
    return node(p.l, p.w, seed, secret, p.h, 0)


def path(p, seed, secret, leaf):
    return [node(p.l, p.w, seed, secret, k, (leaf >> k) ^ 1) for k in range(p.h)]


def climb_path(seed, leaf, key, siblings):
    for k, other in enumerate(siblings):
        pair = other + key if leaf >> k & 1 else key + other
        key = tweaked(seed, address(2, 0, k + 1, leaf >> k + 1), pair)
    return key


def pieces(values):
    return [values[at : at + 16] for at in range(0, len(values), 16)]


def revealed(p, seed, secret, leaf, number):
    row = row_of(p.l, p.w, p.s, number)
    return b"".join(chain_value(seed, secret, leaf, c, height) for c, height in enumerate(row))


def recovered(p, seed, leaf, number, values):
    """The leaf key, and the steps made, one by one."""
    tops = []
    steps = 0
    for c, height in enumerate(row_of(p.l, p.w, p.s, number)):
        value = values[16 * c : 16 * c + 16]
        while height < p.w - 1:
            value = climb(seed, leaf, c, height, height + 1, value)
            height += 1
            steps += 1
        tops.append(value)
    return key_of_tops(seed, leaf, tops), steps


def profile_causes(p):
    return shape_causes(p.l, p.w, p.s) + [
        (4, lambda: not 0 <= p.h <= 10),
        (22, lambda: p.edition not in EDITIONS),
    ]


def table_causes(p, work):
    return profile_causes(p) + work_cause(p.l, p.s, work)


def count_of(p):
    return ways(p.w, p.l, p.s)


def number_cause(p, number):
    return 7 if number >= count_of(p) else 0


def count_cause(p):
    return 19 if count_of(p) < LEAST_COUNT else 0


def with_table(p, work):
    return filled(p.l, p.w, p.s, work)


def leaf_key(p, seed, secret, leaf):
    """The outcome, the leaf key."""
    refused = first_cause(profile_causes(p) + [(11, lambda: leaf >= 2**p.h)])
    return (refused, ZERO) if refused else (0, key_of_leaf(p.l, p.w, seed, secret, leaf))


def root(p, seed, secret):
    """The outcome, the root."""
    refused = first_cause(profile_causes(p))
    return (refused, ZERO) if refused else (0, root_of(p, seed, secret))


def reveal(p, seed, secret, leaf, number, work, values):
    """The outcome, the values' slice, the work slice."""
    refused = first_cause(
        table_causes(p, work)
        + [(6, lambda: len(values) < 16 * p.l), (11, lambda: leaf >= 2**p.h)]
    )
    if refused:
        return refused, values, work
    refused = number_cause(p, number)
    if refused:
        return refused, values, with_table(p, work)
    shown = revealed(p, seed, secret, leaf, number)
    return 0, shown + values[len(shown) :], with_table(p, work)


def recover(p, seed, leaf, number, values, work):
    """The outcome, the leaf key, the steps, the work slice."""
    refused = first_cause(
        table_causes(p, work)
        + [(13, lambda: len(values) != 16 * p.l), (11, lambda: leaf >= 2**p.h)]
    )
    if refused:
        return refused, ZERO, 0, work
    refused = number_cause(p, number)
    if refused:
        return refused, ZERO, 0, with_table(p, work)
    return 0, *recovered(p, seed, leaf, number, values), with_table(p, work)


def signature_length(p):
    return 20 + 16 * p.l + 16 * p.h


def digested(p, r, seed, root, leaf, text):
    """What an order's digest is taken of. The leaf, which is the one signed with, is in edition 2
    between root and text, and in edition 1 nowhere."""
    place = leaf.to_bytes(4, "big") if p.edition == 2 else b""
    return r + seed + root + place + text


def order_digest(p, r, seed, root, leaf, text):
    return hashlib.sha256(digested(p, r, seed, root, leaf, text)).digest()


def message_number(p, r, seed, root, leaf, text):
    """The digest's first b bits: below 2^b, so below the count."""
    return first_bits(order_digest(p, r, seed, root, leaf, text), number_bits(count_of(p)))


def signature_of(p, seed, secret, leaf, r, number):
    values = revealed(p, seed, secret, leaf, number)
    return leaf.to_bytes(4, "big") + r + values + b"".join(path(p, seed, secret, leaf))


# The mark is a number, as it is in C: 1 is a mark, every other number none.
SigningKey = namedtuple("SigningKey", "profile seed secret next mark")
Verifier = namedtuple("Verifier", "profile seed root highest marks")


def fresh_key(p, seed, secret):
    return SigningKey(p, seed, secret, 0, 0)


def reserved_key(p, seed, secret, leaf):
    """A key that is to sign with this leaf, which is the one before its next."""
    return SigningKey(p, seed, secret, leaf + 1, 1)


def restarted(key):
    """What a desk goes on with after a cut, from the stored key: the mark cleared."""
    return key._replace(mark=0)


def mark_counts(key):
    """Only with a next leaf of 1 to 2^h; any other mark is met as none."""
    return key.mark == 1 and 1 <= key.next <= 2**key.profile.h


def reserve(key):
    """The outcome, the key: the next leaf is marked, and the one behind it is the next."""
    refused = first_cause(
        profile_causes(key.profile)
        + [(21, lambda: mark_counts(key)), (12, lambda: key.next >= 2**key.profile.h)]
    )
    return (refused, key) if refused else (0, key._replace(next=key.next + 1, mark=1))


def text_cause(text):
    return [(16, lambda: not 1 <= len(text) <= 200)]


def sign(key, r, text, work, out):
    """The outcome, the key, the output slice, the work slice."""
    p, seed, secret = key[:3]
    refused = first_cause(
        table_causes(p, work)
        + text_cause(text)
        + [(6, lambda: len(out) < signature_length(p)), (20, lambda: not mark_counts(key))]
    )
    if refused:
        return refused, key, out, work
    refused = count_cause(p)
    if refused:
        return refused, key, out, with_table(p, work)
    leaf = key.next - 1
    number = message_number(p, r, seed, root_of(p, seed, secret), leaf, text)
    signature = signature_of(p, seed, secret, leaf, r, number)
    written = signature + out[len(signature) :]
    return 0, key._replace(mark=0), written, with_table(p, work)


def accepted_leaves(highest, marks):
    """What the marks say: mark i, that the leaf i below the highest was accepted. A mark may name a
    number below 0, which no leaf has, and is a mark all the same."""
    return {highest - i for i in range(WINDOW) if marks >> i & 1}


def is_passed(highest, marks, leaf):
    """Whether 14 refuses a leaf: one 32 or more below the highest, or one already accepted. With no
    mark set any is taken."""
    accepted = accepted_leaves(highest, marks)
    return bool(accepted) and (highest - leaf >= WINDOW or leaf in accepted)


def with_leaf(highest, marks, leaf):
    """The highest leaf and the marks once this leaf is accepted too."""
    accepted = accepted_leaves(highest, marks)
    highest = max(highest, leaf) if accepted else leaf
    accepted.add(leaf)
    return highest, sum(2**i for i in range(WINDOW) if highest - i in accepted)


def check(verifier, text, signature, work):
    """The outcome, the cabinet, the steps, the work slice."""
    p, seed, root, *window = verifier
    leaf = int.from_bytes(signature[:4], "big")
    refused = first_cause(
        table_causes(p, work)
        + text_cause(text)
        + [
            (13, lambda: len(signature) != signature_length(p)),
            (11, lambda: leaf >= 2**p.h),
            (14, lambda: is_passed(*window, leaf)),
        ]
    )
    if refused:
        return refused, verifier, 0, work
    refused = count_cause(p)
    if refused:
        return refused, verifier, 0, with_table(p, work)
    number = message_number(p, signature[4:20], seed, root, leaf, text)
    end = 20 + 16 * p.l
    key, steps = recovered(p, seed, leaf, number, signature[20:end])
    if climb_path(seed, leaf, key, pieces(signature[end:])) != root:
        return 15, verifier, steps, with_table(p, work)
    return 0, Verifier(p, seed, root, *with_leaf(*window, leaf)), steps, with_table(p, work)
