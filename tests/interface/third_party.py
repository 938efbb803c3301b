"""Compares the independent implementation and the library with values that others have computed:
WOTS+ keys, roots and a signature of an SLH-DSA (FIPS 205) by other makers, and SHA-256 digests that
NIST publishes.

    python3 tests/interface/third_party.py [--archive FILE]
    python3 tests/interface/third_party.py --jar FILE    computes the values anew by this bcprov.jar

At n = 16 and w = 16, SLH-DSA-SHA2-128 has 35 chains, and at layer 0 and tree 0 its addresses and
its functions F, H, T and PRF are the scope document's. So its WOTS+ public key of a key pair is
Leaf key at l = 35, w = 16, its XMSS root is Root, and what it signs a message with is what Reveal
shows for the row of FIPS 205, digits and checksum, whose sum is s.

The values are those of Bouncy Castle 1.80 (Debian 13, package libbcprov-java 1.80-3), package
org.bouncycastle.pqc.crypto.slhdsa, by its methods WotsPlus.pkGen (leaf keys), HT.xmss_PKgen (roots
of the heights of SLH-DSA-SHA2-128f and -128s, 3 and 9), HT.treehash (roots of other heights) and
HT.xmss_sign (the signature); third_party/Values.java calls them. Bouncy Castle 1.72 gives the same.
"""

import subprocess
import tempfile
from functools import partial
from pathlib import Path

from paths import TESTS, fail, say

import zarosnik
from answers import answer, arguments
from archived import archive_of, archive_parser, shared_object
from calls import by_name, load
from operations import LENT
from signatures import Profile, Verifier, signature_length
from zarosnik import table_length

# Public and secret seed.
FIRST = ("101112131415161718191a1b1c1d1e1f", "e0e1e2e3e4e5e6e7e8e9eaebecedeeef")
SECOND = ("ba7816bf8f01cfea414140de5dae2223", "b00361a396177a9cb410ff61f20015ad")
# The seeds, the leaf, its key.
LEAF_KEYS = [
    (FIRST, 0, "78f77fb098ecf049a8fb53cd6e3c18aa"),
    (FIRST, 1, "9e3465b013ba65a4f6df50e98f0ddc6a"),
    (FIRST, 341, "26d40464cb93323dbc310ac9e117a79c"),
    (FIRST, 1023, "85d6b39bb57612d606593d3e5f640114"),
    (SECOND, 0, "8c15b20b6d8afde5744b7fb69cec3661"),
    (SECOND, 682, "aab324468d4de1272c0d89af12e70237"),
]
# The seeds, the height, the root.
ROOTS = [
    (FIRST, 3, "d1fe4e2e2ee16bb7b5bb7f94c1e7689b"),
    (FIRST, 9, "c41d30fb4791cef00a3096312f1f36fc"),
    (FIRST, 10, "725bea09ad591e16bb261b58fd086e4a"),
    (SECOND, 0, "8c15b20b6d8afde5744b7fb69cec3661"),
    (SECOND, 1, "6a013e87c7451fd316318634955ffa32"),
    (SECOND, 3, "3024e7f39fdcc7da5cd1803ae1c2a453"),
]
# What signs a message of 16 bytes under the first seeds in a tree of height 9: the values of leaf
# 341 and its siblings.
MESSAGE, SIGNED_LEAF, SIGNED_HEIGHT = "248d6a61d20638b8e5c026930c3e6039", 341, 9
VALUES = (
    "691b52cac7fbdffc9bdceea8db2c0e09dc5d9c9301f7c9603720954dcdde2c7bff5aa82ac2a84ddd0252af1a79"
    "9881c2bc7df9a38f071697c7f7534b5357fc8c82be299df221b96a3ef52c581066a6dde2c5e89c898caac94841"
    "1fc369add642bed22df0a7ffeb6946cf43b7df31124ac179ca1e48e84569ce65a9ed4a0e577c783bac35de59ee"
    "0a955f1c0d20e36808c11fe43cd2efcd5cff1704a50699ab691575b786dd1b9c80d62e11bb19276eb865988205"
    "e357dc6dadefa0d08898eeaaf71db3b83dbdf1a82ae0c62da2018633be4b95b35646bfae608e96b336ece304d5"
    "d25080a08e9833cc0f78dadf09a906970b7a25a5ae96b86c798d46bc6323e575d9611f828d70b755936572bf32"
    "d851737f38af3dc61f42f612ef684bfe81376c3b46550b19e45e02b8ee8447a7e6a5d9f9417cd3c2e877ebbb15"
    "a51c38e3cbc6422f1ea64d402dd16c8504b508fc5e8024f6ab808a010eb7d36640c7943f88e08c9e63211903f2"
    "4b1cd0482dd299467149cf907d57015b5584a0701f05e3234d9490004ce60ad82a51bb146f1f8eb879b1536d5a"
    "2d52eeaf524e208597825e621a61624452c8b031f3c5862e1ebdae35dcf383fdeec832c4122a525124893c29e8"
    "57bf1ca917afe33a4e0207f5bdcad2c16afe81cafc88ad61e7fd513fc8f8b3ff5a77828c4fc5dd7674c195c727"
    "345b6cc5213ed6017478f027fd761abac2855e445be763f8e65489c586304e792b7bc0c30bcc05085f867df7fe"
    "7ac24c08a1d16c5679df80f97c532b7c48843577"
)
SIBLINGS = (
    "00497e88afdd8511db707156f6164ac4f592c78ebb96e84cbdb03c76c94b9b1417b6df931b8442d30f56205cfe"
    "7121429d565310780f3d7882fc08b714e942059416e15a592cb63162cf18cd00b1e1b5252abc47dc6f97044389"
    "f3464cd50e3c0cb04d6fb4c5691d20d1ec971c643de58d1d2131174d1272f1e5264a45aec0164d933dfcf1dc4c"
    "5dbfbb6c5f92cdc262"
)
# Digests published by NIST: FIPS 180-2, appendix B.1 and B.2; SHA256ShortMsg.rsp of its algorithm
# validation program (CAVP), lengths 0 and 8 bits.
DIGESTS = [
    (b"abc", "ba7816bf8f01cfea414140de5dae2223b00361a396177a9cb410ff61f20015ad"),
    (
        b"abcdbcdecdefdefgefghfghighijhijkijkljklmklmnlmnomnopnopq",
        "248d6a61d20638b8e5c026930c3e6039a33ce45964ff2167f6ecedd419db06c1",
    ),
    (b"", "e3b0c44298fc1c149afbf4c8996fb92427ae41e4649b934ca495991b7852b855"),
    (b"\xd3", "28969cdfa74a12c82f3bad960b0b000aca2ac329deea5c2328ebc6f2ba9802c1"),
]

CHAINS, WIDTH = 35, 16
# Leaf key and Root do not depend on the sum, nor on the edition; the siblings neither.
SUMS = [(0, 1), (262, 2), (CHAINS * (WIDTH - 1), 1)]


def equal(what, found, expected):
    if found != expected:
        fail(f"{what}: {found} instead of {expected}")
    return 1


def standard_row(message):
    """FIPS 205, algorithm 7: the 32 digits of a message, high half first, and the checksum's."""
    digits = [int(digit, 16) for digit in message]
    checksum = sum(WIDTH - 1 - digit for digit in digits)
    return bytes(digits + [int(digit, 16) for digit in f"{checksum:03x}"])


ROW = standard_row(MESSAGE)
SIGNING = Profile(CHAINS, WIDTH, sum(ROW), SIGNED_HEIGHT, 1)
NUMBER = zarosnik.number_of(WIDTH, sum(ROW), ROW)


def implemented(operation, thing=None, **given):
    """As calls.by_name, by the implementation that is independent of the library."""
    given = arguments(operation, thing, given)
    for name in LENT[operation]:
        given[name] = [0] * given[name] if name == "table" else bytes(given[name])
    return answer(operation, given)


def seeds_of(pair):
    return dict(zip(("public_seed", "secret_seed"), map(bytes.fromhex, pair)))


def hold(call):
    """All values, by the library or by the implementation. How many."""
    made = 0

    def same(expected, operation, thing=None, **given):
        """What is expected by name is granted; answers with all that is left."""
        nonlocal made
        outcome, left = call(operation, thing, **given)
        found = {name: left[name] for name in expected}
        made += equal(f"{operation} of {thing}", (outcome, found), (0, expected))
        return left

    for data, digest in DIGESTS:
        same({"digest": bytes.fromhex(digest)}, "hash", data=data)
    for s, edition in SUMS:
        p = Profile(CHAINS, WIDTH, s, 10, edition)
        for pair, leaf, key in LEAF_KEYS:
            same({"key": bytes.fromhex(key)}, "leaf_key", p, **seeds_of(pair), leaf=leaf)
        for pair, height, root in ROOTS:
            same({"root": bytes.fromhex(root)}, "root", p._replace(h=height), **seeds_of(pair))
    # Gather gives the row's number, Reveal the values, Recover from these the leaf key.
    words, seeds, values = table_length(CHAINS, SIGNING.s), seeds_of(FIRST), bytes.fromhex(VALUES)
    same({"number": NUMBER}, "rank", SIGNING, row=ROW, table=words)
    given = {"leaf": SIGNED_LEAF, "number": NUMBER, "table": words}
    shown = {"values": len(values)}
    same({"values": values}, "one_time_sign", SIGNING, **seeds, **given, **shown)
    recovered = {"key": bytes.fromhex(LEAF_KEYS[2][2]), "steps": CHAINS * (WIDTH - 1) - SIGNING.s}
    same(recovered, "one_time_recover", SIGNING, **seeds, **given, values=values)
    # Sign gives the reserved leaf's siblings, and a cabinet with their root takes the order.
    p, text = Profile(CHAINS, WIDTH, 262, SIGNED_HEIGHT, 2), b"sill level 2.4 m"
    reserved = {"next_leaf": SIGNED_LEAF + 1, "mark": 1}
    same(reserved, "reserve", p, next_leaf=SIGNED_LEAF, mark=0)
    order = {"message": text, "table": table_length(p.l, p.s)}
    given = {**seeds_of(FIRST), **reserved, **order, "r": bytes(16)}
    signature = same({"mark": 0}, "sign", p, **given, signature=signature_length(p))["signature"]
    made += equal("siblings", signature[-16 * p.h :].hex(), SIBLINGS)
    verifier = Verifier(p, seeds["public_seed"], bytes.fromhex(ROOTS[1][2]), 0, 0)
    after = {"highest_leaf": SIGNED_LEAF, "marks": 1}
    same(after, "verify", verifier, **order, signature=signature)
    return made


def lines_of_values():
    """What third_party/Values.java prints."""
    for seeds in (FIRST, SECOND):
        yield from (f"leaf key {leaf} {key}" for of, leaf, key in LEAF_KEYS if of == seeds)
        yield from (f"root {height} {root}" for of, height, root in ROOTS if of == seeds)
        if seeds == FIRST:
            yield f"values {SIGNED_LEAF} {VALUES}"
            yield f"siblings {SIGNED_LEAF} {SIBLINGS}"


def compute_anew(jar):
    with tempfile.TemporaryDirectory() as folder:
        source = str(TESTS / "interface" / "third_party" / "Values.java")
        subprocess.run(["javac", "-cp", str(jar), "-d", folder, source], check=True)
        name = "org.bouncycastle.pqc.crypto.slhdsa.Values"
        command = ["java", "-cp", f"{jar}:{folder}", name]
        made = subprocess.run(command, check=True, capture_output=True, text=True)
    return equal("what Bouncy Castle gives", made.stdout.splitlines(), list(lines_of_values()))


def main():
    parser = archive_parser("Compares with values that others have computed.")
    parser.add_argument("--jar", type=Path, help="Bouncy Castle's, to compute the values anew")
    options = parser.parse_args()
    archive = archive_of(options)
    made = hold(implemented)
    if options.jar:
        made += compute_anew(options.jar.resolve())
    with tempfile.TemporaryDirectory() as folder:
        made += hold(partial(by_name, load(shared_object(archive, folder))))
    say(f"{made} comparisons, no difference")


if __name__ == "__main__":
    main()
