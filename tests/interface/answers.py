"""What each operation answers and leaves, by the names of its parameters in C: the independent
implementation in the form of the C interface. Numbers are numbers, a table is a list of words, and
all else is bytes. What a call may write and leaves untouched is left as it was.
"""

import hashlib

import keys
import sheets
import signatures
import zarosnik
from operations import MOST_HASHED, parameters
from signatures import Profile, SigningKey, Verifier


def hashed(data):
    refused = 18 if len(data) > MOST_HASHED else 0
    return refused, bytes(32) if refused else hashlib.sha256(data).digest()


# The function of each operation; what it takes, by the names in C; and what it gives behind the
# outcome. P is a profile, which stands for its five numbers, K a key and V a verifier.
FUNCTIONS = {
    "hash": (hashed, "data", "digest"),
    "count": (zarosnik.count, "l w s table", "number table"),
    "unrank": (zarosnik.spread, "l w s number table row", "row table"),
    "rank": (zarosnik.gather, "l w s row table", "number table"),
    "compare": (zarosnik.compare, "first second", "order looked"),
    "leaf_key": (signatures.leaf_key, "P public_seed secret_seed leaf", "key"),
    "root": (signatures.root, "P public_seed secret_seed", "root"),
    "one_time_sign": (
        signatures.reveal,
        "P public_seed secret_seed leaf number table values",
        "values table",
    ),
    "one_time_recover": (
        signatures.recover,
        "P public_seed leaf number values table",
        "key steps table",
    ),
    "reserve": (signatures.reserve, "K", "K"),
    "sign": (signatures.sign, "K r message table signature", "K signature table"),
    "verify": (signatures.check, "V message signature table", "V steps table"),
    "read_sheet": (
        sheets.read_sheet,
        "P sheet signature message",
        "line message_written signature message",
    ),
    "write_sheet": (sheets.write_sheet, "P signature message sheet", "sheet_written sheet"),
    "read_key": (keys.read_key, "frame", "line K"),
    "write_key": (keys.write_key, "K frame", "frame_written frame"),
}
STATES = {
    "K": (SigningKey, ["public_seed", "secret_seed", "next_leaf", "mark"]),
    "V": (Verifier, ["public_seed", "root", "highest_leaf", "marks"]),
}


def profile_of(given):
    return Profile(*(given[name] for name in Profile._fields))


def fields(thing):
    """The arguments that a profile, a key or a verifier stands for."""
    if isinstance(thing, Profile):
        return thing._asdict()
    names = STATES["K" if isinstance(thing, SigningKey) else "V"][1]
    return {**thing.profile._asdict(), **dict(zip(names, thing[1:]))}


def answer(operation, given):
    """The outcome, and what is left, by name."""
    function, taken, told = FUNCTIONS[operation]
    known = given | ({"P": profile_of(given)} if "edition" in given else {})
    for name in STATES.keys() & set(taken.split()):
        kind, names = STATES[name]
        known[name] = kind(known["P"], *map(given.get, names))
    outcome, *left = function(*(known[name] for name in taken.split()))
    left = dict(zip(told.split(), left, strict=True))
    for name in STATES.keys() & left.keys():
        left |= {**fields(left[name]), "profile": list(left[name].profile)}
    written = [p.name for p in parameters(operation) if not p.by_value and not p.read_only]
    return outcome, {name: left[name] for name in written}


def arguments(operation, thing, given):
    """What an operation is given, in the order of its parameters: of the fields of a thing, where
    there is one, those that it takes."""
    known = (fields(thing) if thing else {}) | given
    return {p.name: known[p.name] for p in parameters(operation) if p.name in known}


def handed_back(thing, left):
    """A key or a verifier as a call leaves it."""
    if isinstance(thing, SigningKey):
        return thing._replace(next=left.get("next_leaf", thing.next), mark=left["mark"])
    return thing._replace(highest=left["highest_leaf"], marks=left["marks"])


def key_read(left):
    return SigningKey(Profile(*left["profile"]), *(left[name] for name in STATES["K"][1]))
