"""Writes the test vectors of the folder vectors/, one file a family.

    python3 tests/vectors/make_vectors.py           writes the files
    python3 tests/vectors/make_vectors.py --check   succeeds where the folder has exactly these

Every value comes from the implementation that is independent of the library, and from hashlib.
Nothing is random, so every run writes the same bytes. vectors/README.md says the format.
"""

import argparse
import json

from paths import ROOT, fail, say

import signatures
import zarosnik
from comparisons import HIGHEST, number_of_words
from operations import MOST_HASHED
from signatures import GATE, GATE_2, Profile, count_of
from vector_calls import GATE_SHAPE, SECRET, SEED, SEEDS, SMALL
from vector_calls import derived, flipped, hash_vector, vector
from vector_keys import keys_family
from vector_orders import orders_family
from vector_refusals import refusals_family
from vector_sheets import sheets_family
from zarosnik import WORDS, row_of, table_length

FOLDER = ROOT / "vectors"


def hash_family():
    yield hash_vector("no bytes", b"")
    yield hash_vector("the three characters abc", b"abc")
    for size in (1, 55, 56, 63, 64, 65, 119, 120, 127, 128, 1000):
        yield hash_vector(f"{size} bytes", derived("hash", size))
    yield hash_vector("the most bytes that are taken", b"a", MOST_HASHED)


# Their tables are written out, and every number is placed; of the large ones some are.
SMALL_SHAPES = [(3, 3, 3), (4, 2, 2), (1, 16, 15), (3, 3, 6), (1, 2, 0), (2, 2, 1), (5, 4, 4)]
LARGE_SHAPES = [GATE_SHAPE, (34, 15, 238), (35, 16, 262)]
LARGE_SHAPES += [(40, 16, 0), (40, 16, 300), (40, 16, 600), (40, 2, 20)]


def rows_family():
    message_number = int.from_bytes(derived("number"), "big")
    for shape in SMALL_SHAPES + LARGE_SHAPES:
        p, words, size = Profile(*shape, 0, 1), table_length(shape[0], shape[2]), shape[0]
        count = count_of(p)
        some = {0, 1, 2**64, message_number, 2**128 - 1, count // 3, count - 1}
        yield vector("count", "a work slice just long enough", p, table=words)
        yield vector("count", "a longer work slice", p, table=words + 7)
        for number in range(count) if shape in SMALL_SHAPES else sorted(some):
            if number < count:
                yield vector("unrank", "number to row", p, number=number, table=words, row=size)
                yield vector("rank", "row to number", p, row=row_of(*shape, number), table=words)
        yield vector("unrank", "both slices longer", p, number=0, table=words + 1, row=size + 3)


# Words of a number, least first, all below 2^31: the highest bit makes each of them greater.
COMPARED_WORDS = [0x71A2B3C4, 0x2D3E4F50, 0x61728394, 0x5A6B7C8D, 0x1E2F3041]
LARGEST = 2**160 - 1


def with_word(place, word, below=None):
    """The number with another word at a place; below it the same words, or this one everywhere."""
    low = COMPARED_WORDS[:place] if below is None else [below] * place
    return number_of_words([*low, word, *COMPARED_WORDS[place + 1 :]])


def compared():
    """Words, and two numbers, the lesser one first."""
    for place in reversed(range(WORDS)):
        word = COMPARED_WORDS[place]
        high = word | 1 << 31
        pairs = {
            "one more": ([word], [word + 1]),
            "another highest bit": ([word], [high]),
            "0 and 2^32 - 1": ([0], [HIGHEST]),
        }
        if place:
            pairs["the words below in the other order"] = [word, HIGHEST], [word + 1, 0]
            pairs["the words below in the same order"] = [word, 0], [high, HIGHEST]
        for note, numbers in pairs.items():
            yield f"word {place} differs: {note}", *(with_word(place, *n) for n in numbers)
    yield "zero and the largest number", 0, LARGEST
    messages = sorted(int.from_bytes(derived(f"compared {k}"), "big") for k in range(2))
    yield "two message numbers, whose highest words are 0", *messages
    yield "a message number and the gate's count", messages[0], count_of(GATE)


def compare_family():
    number = number_of_words(COMPARED_WORDS)
    for note, alike in [("zero", 0), ("a number", number), ("the largest number", LARGEST)]:
        yield vector("compare", f"{note} and itself", first=alike, second=alike)
    for note, less, greater in compared():
        yield vector("compare", note, first=less, second=greater)
        yield vector("compare", f"{note}; the other way round", first=greater, second=less)


OTHER_SEEDS = [(bytes(16), b"\xff" * 16), (derived("public"), derived("secret"))]
SEED_PAIRS = [SEEDS, *({"public_seed": seed, "secret_seed": key} for seed, key in OTHER_SEEDS)]
SAME = "edition 2, the same as edition 1"


def leaf_keys_family():
    for p in (Profile(1, 2, 0, 0, 1), SMALL, Profile(40, 16, 300, 4, 1), GATE):
        for pair in SEED_PAIRS:
            for leaf in sorted({0, 2**p.h // 3, 2**p.h - 1}):
                yield vector("leaf_key", "a leaf", p, **pair, leaf=leaf)
    note = "the WOTS+ public key of SLH-DSA-SHA2-128 at layer 0 and tree 0"
    for leaf in (0, 5, 511):
        yield vector("leaf_key", note, Profile(35, 16, 262, 9, 1), **SEEDS, leaf=leaf)
    for p, leaf in [(SMALL._replace(edition=2), 1), (GATE_2, 341)]:
        yield vector("leaf_key", SAME, p, **SEEDS, leaf=leaf)


def roots_family():
    for h in range(5):
        for pair in SEED_PAIRS:
            yield vector("root", f"height {h}", Profile(3, 3, 3, h, 1), **pair)
    for note, p in [
        ("the sum has no part in a root", Profile(3, 3, 4, 1, 1)),
        ("one chain, the highest tree", Profile(1, 2, 1, 10, 1)),
        ("the most chains of the largest width", Profile(40, 16, 300, 1, 1)),
        *((f"the gate's shape, height {h}", GATE._replace(h=h)) for h in range(4)),
        ("the gate profile", GATE),
        (SAME, Profile(3, 3, 3, 2, 2)),
        (SAME, GATE_2),
    ]:
        yield vector("root", note, p, **SEEDS)


# Profiles and leaves.
ONE_TIME = [
    *[(SMALL, 1), (Profile(4, 2, 2, 0, 1), 0), (Profile(1, 16, 15, 3, 1), 5)],
    *[(Profile(3, 3, 6, 2, 1), 3), (Profile(40, 16, 0, 1, 1), 1), (Profile(40, 16, 600, 0, 1), 0)],
    *[(Profile(40, 16, 300, 2, 1), 2), (GATE, 700)],
]


def one_time(operation, note, p, leaf, number, values, more_words=0):
    """Shown into a slice of so many bytes, or recovered from these values."""
    given = {"leaf": leaf, "number": number, "values": values}
    words = table_length(p.l, p.s) + more_words
    return vector(f"one_time_{operation}", note, p, **SEEDS, **given, table=words)


def one_time_family():
    for p, leaf in ONE_TIME:
        count, size = count_of(p), 16 * p.l
        for number in sorted({0, count // 3, count - 1}):
            last, values = (p, leaf, number), signatures.revealed(p, SEED, SECRET, leaf, number)
            yield one_time("sign", "the values of a number", *last, size)
            yield one_time("recover", "leads to the leaf key", *last, values)
        yield one_time("sign", "both slices longer", *last, size + 5, 3)
        yield one_time("recover", "the first value changed", *last, flipped(values, 0))
        yield one_time("recover", "the last value changed", *last, flipped(values, -1))
        yield one_time("recover", "any values", *last, derived("values", size))
    for p, leaf in [(SMALL._replace(edition=2), 1), (GATE_2, 700)]:
        number = count_of(p) // 3
        values = signatures.revealed(p, SEED, SECRET, leaf, number)
        yield one_time("sign", SAME, p, leaf, number, len(values))
        yield one_time("recover", SAME, p, leaf, number, values)


FAMILIES = [hash_family, rows_family, compare_family, leaf_keys_family, roots_family]
FAMILIES += [one_time_family, orders_family, refusals_family, sheets_family, keys_family]
FAMILIES = {family.__name__.removesuffix("_family"): family for family in FAMILIES}


def main():
    parser = argparse.ArgumentParser(description="Writes the test vectors.")
    parser.add_argument("--check", action="store_true", help="compare, write nothing")
    check = parser.parse_args().check
    for holds in (zarosnik.disagreement, zarosnik.wrong_comparison, zarosnik.wrong_bits):
        wrong = holds()
        if wrong is not None:
            fail(f"the independent implementation has a {holds.__name__} at {wrong}")
    texts = {}
    for name, family in FAMILIES.items():
        lines = ",\n".join(map(json.dumps, family()))
        texts[f"{name}.json"] = f'{{"family": "{name}", "vectors": [\n{lines}\n]}}\n'
    if not check:
        for name, text in texts.items():
            (FOLDER / name).write_text(text, encoding="ascii")
    found = {path.name: path.read_text(encoding="ascii") for path in FOLDER.glob("*.json")}
    for name in sorted(found.keys() | texts.keys()):
        if found.get(name) != texts.get(name):
            fail(f"vectors/{name} is not what is to be written")
    say(f"{len(texts)} files, {sum(map(len, texts.values()))} bytes")


if __name__ == "__main__":
    main()
