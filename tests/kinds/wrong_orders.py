"""Sign and Check made wrong in the number of an order, in refusal 19 and in the digest: by another
rule for the bits, for 19 or for what the digest is taken of, in either edition.
"""

import hashlib

import shapes
from editions import other
from operations import ORDERS
from signatures import LEAST_COUNT, Profile, climb_path, count_of, order_digest, pieces
from signatures import recovered, root_of, signature_of, with_leaf
from wrong import NOTHING, anywhere, given_just, granted, laid, leaving, named, restored, way
from zarosnik import MOST_BITS, first_bits, number_bits

# What an order is answered with once its turn has come for the count.
JUDGED = (0, 15, 19)
WINDOW_NAMES = "highest_leaf", "marks"


def put_window(given, window):
    given.put_state(**dict(zip(WINDOW_NAMES, window, strict=True)))


def right_digest(given, p, *order):
    return order_digest(p, *order)


def right_number(count, digest):
    return first_bits(digest, number_bits(count))


@way
def rule(given, p, *order, number_of=right_number, least=LEAST_COUNT, digest_of=right_digest):
    """Gives a refusal or 0, and the number, of an order: R, public seed, root, leaf and text. Where
    the number is not below the count, 7 is told, as it was in earlier days."""
    count = count_of(p)
    if count < least:
        return 19, 0
    number = number_of(count, digest_of(given, p, *order))
    return (0, number) if number < count else (7, 0)


@way
def sign_by(judged, right, given):
    leaf, before = given["next_leaf"] - 1, given.content("signature")
    outcome = right()
    if outcome not in JUDGED:
        return outcome
    p, r, text = given.profile(), given.content("r"), given.content("message")
    seeds = given.content("public_seed"), given.content("secret_seed")
    refused, number = judged(given, p, r, seeds[0], root_of(p, *seeds), leaf, text)
    given.put_state(mark=refused > 0)
    given.put("signature", before if refused else signature_of(p, *seeds, leaf, r, number))
    return refused


@way
def verify_by(*rules_and_call):
    """By several rules, what the first says that takes the order, else the last."""
    *rules, right, given = rules_and_call
    window = given.state(*WINDOW_NAMES)
    outcome = right()
    if outcome not in JUDGED:
        return outcome
    put_window(given, window)
    p, signature, leaf = given.profile(), given.content("signature"), given.leaf()
    seed, root, text = map(given.content, ("public_seed", "root", "message"))
    for judged in rules:
        steps, end = 0, 20 + 16 * p.l
        refused, number = judged(given, p, signature[4:20], seed, root, leaf, text)
        if not refused:
            key, steps = recovered(p, seed, leaf, number, signature[20:end])
            refused = 0 if climb_path(seed, leaf, key, pieces(signature[end:])) == root else 15
        given.put_state(steps=steps)
        if not refused:
            put_window(given, with_leaf(*window, leaf))
            break
    return refused


BY_RULE = {"sign": sign_by, "verify": verify_by}


# Other numbers, by the count and the digest.


def by_bits(bits_of):
    return lambda count, digest: first_bits(digest, bits_of(number_bits(count)))


def earlier_number(count, digest):
    return first_bits(digest, MOST_BITS)


def last_bits(count, digest):
    return earlier_number(count, digest) % 2 ** number_bits(count)


@way
def if_below(number_of, count, digest):
    found = number_of(count, digest)
    return found if found < count else right_number(count, digest)


NUMBERS = {
    "a bit too many, up to 128": by_bits(lambda bits: min(bits + 1, MOST_BITS)),
    "a bit too many if below the count": if_below(by_bits(lambda bits: bits + 1)),
    "127 bits at most": by_bits(lambda bits: min(bits, MOST_BITS - 1)),
    "more than 128 bits": lambda count, digest: first_bits(digest, count.bit_length() - 1),
    "whole bytes": by_bits(lambda bits: bits // 8 * 8),
    "bits within a word": by_bits(lambda bits: bits % 32),
    "the last of 16 bytes": last_bits,
    "the second 16 bytes": lambda count, digest: right_number(count, digest[16:]),
    "16 bytes modulo the count": lambda count, digest: earlier_number(count, digest) % count,
    "16 bytes where these are below the count": if_below(earlier_number),
    "the rule of earlier days behind 19": earlier_number,
}


# Other digests: what edition 2's is taken of, from R, the public seed s, the root t, the leaf f in
# four bytes, and the text m.
PARTS = {
    "the leaf's least byte first": lambda r, s, t, f, m: (r, s, t, f[::-1], m),
    "the leaf before the root": lambda r, s, t, f, m: (r, s, f, t, m),
    "the leaf behind the text": lambda r, s, t, f, m: (r, s, t, m, f),
    "leaf 0": lambda r, s, t, f, m: (r, s, t, bytes(4), m),
    "the leaf cut to 8 bits": lambda r, s, t, f, m: (r, s, t, bytes(3), f[3:], m),
}


@way
def taken_of(parts_of, given, p, r, seed, root, leaf, text):
    if p.edition == 1:
        return order_digest(p, r, seed, root, leaf, text)
    parts = parts_of(r, seed, root, leaf.to_bytes(4, "big"), text)
    return hashlib.sha256(b"".join(parts)).digest()


def of_highest_leaf(given, p, r, seed, root, leaf, text):
    return order_digest(p, r, seed, root, *given.state("highest_leaf"), text)


@way
def as_edition(number_of, given, p, *order):
    return order_digest(p._replace(edition=number_of(p.edition)), *order)


DIGESTS = {what: taken_of(parts_of) for what, parts_of in PARTS.items()} | {
    "edition 2's digest for edition 1": as_edition(lambda edition: 2),
    "edition 1's digest for edition 2": as_edition(lambda edition: 1),
}


def seen_by(case):
    """At each number of bits, at counts far above 2^128, and of the other edition."""
    return granted(case) or named("edge", "earlier", "crossed", "high_leaf")(case)


def wrong():
    # the counts next to 2^8 and 2^9
    low = [(shape,) for shape in shapes.edges() if count_of(Profile(*shape, 0, 1)) < 1000]
    below, above = shapes.neighbours(shapes.LEAST_BITS)
    limits = {"19 not at 255": below, "19 at the least count that signs": above + 1}
    for operation in ORDERS:
        made = BY_RULE[operation]
        yield NOTHING, operation, made(rule()), anywhere
        for what, number_of in NUMBERS.items():
            yield what, operation, made(rule(number_of=number_of)), seen_by
        for what, least in limits.items():
            yield what, operation, made(rule(least=least)), given_just("edge", *low)
        for what, digest_of in DIGESTS.items():
            yield f"digest: {what}", operation, made(rule(digest_of=digest_of)), seen_by
        yield "no table after 19", operation, restored("table", [19]), laid(19)
    steps_told = leaving(lambda given: given.put_state(steps=given["l"]), 19)
    yield "steps told after 19", "verify", steps_told, laid(19)
    either = verify_by(rule(), rule(number_of=earlier_number))
    yield "either rule", "verify", either, named("earlier")
    either = verify_by(rule(), rule(digest_of=as_edition(other)))
    yield "digest: either edition's", "verify", either, seen_by
    highest = verify_by(rule(digest_of=of_highest_leaf))
    yield "digest: the cabinet's highest leaf", "verify", highest, seen_by
