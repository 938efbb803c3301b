"""Runs the program `listing_main` on many inputs and compares all that it writes with an
implementation of the scope document's listing that is independent of the library. Some inputs come
byte by byte, through a pipe that stays open: the program must answer all the same once it has its
line, and must leave in the pipe what stands behind that line.

    python3 tests/programs/listing.py

Builds the program first, unless it is built. Rows come from listing them in dictionary order, not
from counting: counts only choose inputs.
"""

import itertools
import os
import random
import subprocess
import sys
import time

from paths import ROOT, fail, say

import zarosnik

CRATE = ROOT / "crates" / "listing_main"
PROGRAM = CRATE / "out" / "listing_main"
WORK_WORDS = 16000
MOST = 256
DIGITS = b"0123456789ABCDEF"
# A line that asks something has so many characters, its ending among them.
LINE = 11
ANSWER_SECONDS = 2
PAUSE_SECONDS = 0.02


def line(*parts):
    """Bytes in upper-case hex, and the byte 0A."""
    return b"".join(parts).hex().upper().encode() + b"\n"


def rows(l, w, s):
    """All rows of l lengths below w with the sum s, in dictionary order."""
    if l == 0:
        yield b""
        return
    for length in range(max(0, s - (l - 1) * (w - 1)), min(w - 1, s) + 1):
        for rest in rows(l - 1, w, s - length):
            yield bytes([length]) + rest


def refusal(l, w, s):
    causes = {1: not 1 <= l <= 40, 2: not 2 <= w <= 16, 3: not 0 <= s <= l * (w - 1)}
    causes[5] = WORK_WORDS < 5 * (l + 1) * (s + 1)
    return next((number for number, holds in causes.items() if holds), 0)


def expected(given):
    """All that the program writes."""
    first, ending, _ = given.partition(b"\n")
    well_formed = ending and len(first) == 10 and all(c in DIGITS for c in first)
    fields = bytes.fromhex(first.decode()) if well_formed else b""
    if fields[:1] != b"\x10":
        return line(b"\x1f\x11")
    shape = fields[1], fields[2], int.from_bytes(fields[3:], "big")
    if refusal(*shape):
        return line(bytes([0x1F, refusal(*shape)]))
    first_rows = itertools.islice(rows(*shape), MOST)
    return b"".join(line(b"\x11", n.to_bytes(2, "big"), row) for n, row in enumerate(first_rows))


def request(l, w, s):
    return line(bytes([0x10, l, w]), s.to_bytes(2, "big"))


EXAMPLE = b"1003030003\n"
EXAMPLE_ROWS = [b"000102", b"000201", b"010002", b"010101", b"010200", b"020001", b"020100"]
REFUSED = [
    *[(l, 3, 3) for l in (0, 41, 255)],
    *[(3, w, 3) for w in (0, 1, 17, 255)],
    *[(3, 3, s) for s in (7, 259, 65535)],
    # the gate profile, the largest shape, one word too many
    *[(34, 16, 255), (40, 16, 600), (39, 16, 80), (40, 16, 78)],
    # several causes: the first one is told
    *[(0, 0, 65535), (41, 17, 700), (3, 1, 9), (3, 17, 1000), (40, 16, 601)],
]
# the largest tables that are taken, and the ends of every limit
LARGE = [
    *[(39, 16, 79), (40, 16, 77), (33, 16, 93), (40, 2, 40), (40, 2, 0)],
    *[(1, 16, 15), (1, 2, 0), (1, 2, 1)],
]
MALFORMED = [
    *[b"", b"\n", b"1", b"1003030003", b"100303000\n", b"10030300\n", b"10030300030\n"],
    *[b"100303000300\n", b"10030300030A\n", b"\n1003030003\n", b" 1003030003\n", b"1003030003 \n"],
    *[b"1003030003\r\n", b"100303000\r\n", b"1003030003\r", b"1003030003\0\n", b"1f05000000\n"],
    *[b"100a020005\n", b"100A02000a\n", b"0x03030003\n", b"-003030003\n"],
    *[b"%02X03030003\n" % kind for kind in (0x00, 0x01, 0x0F, 0x11, 0x1F, 0x20, 0xFF)],
    # the neighbours of the digits, lower case and endings, at every place
    *[
        EXAMPLE[:k] + bytes([c]) + EXAMPLE[k + 1 :]
        for k in range(10)
        for c in b"/:@G`ag\x00\x0a\x0d\x8a\xff"
    ],
]
BEHIND = [b"\n", b"1", b"1004020002\n", b"G", b"\r\n", b"\0\0\0", bytes(range(256)) * 40]
# What comes byte by byte.
FED = [
    *[EXAMPLE, b"10\n", b"\n", b"\n" + EXAMPLE, EXAMPLE + EXAMPLE, EXAMPLE[:-1] + b"1"],
    *[EXAMPLE[:-1] + b"0\n", b"G" * 40, b"10" * 40 + b"\n", request(3, 3, 7)],
    *[request(39, 16, 80) + b"\n", request(40, 16, 77), b"", b"1", EXAMPLE[:-1]],
]


def cases():
    yield EXAMPLE
    yield from (request(*shape) for shape in REFUSED + LARGE)
    yield from MALFORMED
    answered = [EXAMPLE, request(3, 3, 7), b"10G3030003\n"]
    yield from (given + more for given in answered for more in BEHIND)
    # all small shapes
    for l, w in itertools.product(range(1, 6), range(2, 6)):
        yield from (request(l, w, s) for s in range(l * (w - 1) + 2))
    # of every shape that is granted, the counts nearest to 256: all rows are listed, and only the
    # first of them
    shapes = itertools.product(range(1, 41), range(2, 17), range(601))
    granted = [(zarosnik.ways(w, l, s), (l, w, s)) for l, w, s in shapes if not refusal(l, w, s)]
    yield request(*max(pair for pair in granted if pair[0] <= MOST)[1])
    yield request(*min(pair for pair in granted if MOST < pair[0])[1])
    pick = random.Random(1)
    yield from (request(*pick.choice(granted)[1]) for _ in range(200))
    for _ in range(200):
        yield request(pick.randrange(256), pick.randrange(20), pick.randrange(1000))
    for _ in range(200):
        yield bytes(pick.choices(DIGITS + b"\n", k=pick.randrange(14))) + b"\n"


def line_in(given):
    """What the program reads: up to the first 0A, and no more characters than a line has."""
    first, ending, _ = given.partition(b"\n")
    return (first + ending)[:LINE]


def started(stdin):
    pipes = {"stdout": subprocess.PIPE, "stderr": subprocess.PIPE}
    return subprocess.Popen([PROGRAM], stdin=stdin, **pipes)


def answer_of(process, given=None):
    """What the program writes, or how it fails."""
    try:
        wrote, said = process.communicate(given, timeout=ANSWER_SECONDS)
    except subprocess.TimeoutExpired:
        process.kill()
        process.communicate()
        return b"no answer"
    failed = said or process.returncode
    return b"status %d, %s" % (process.returncode, said) if failed else wrote


def fed(given):
    """What the program writes when its input comes byte by byte, and what it leaves in the pipe.
    Where the input has no whole line, it must wait for more, and answer when the input ends."""
    reading, writing = os.pipe()
    process, early = started(reading), False
    for byte in given:
        os.write(writing, bytes([byte]))
        time.sleep(PAUSE_SECONDS / len(given))
    has_line = b"\n" in line_in(given) or len(line_in(given)) == LINE
    if not has_line:
        time.sleep(PAUSE_SECONDS)
        early = process.poll() is not None
        os.close(writing)
    wrote = answer_of(process)
    if has_line:
        os.close(writing)
    return b"an answer before the line's end" if early else wrote, os.read(reading, 1 << 16)


def main():
    example = [b"11%04X%s\n" % pair for pair in enumerate(EXAMPLE_ROWS)]
    if expected(EXAMPLE) != b"".join(example) or any(expected(m) != b"1F11\n" for m in MALFORMED):
        fail("the implementation here does not give the document's values")
    with (CRATE / "stdin").open("rb") as given:
        build = subprocess.run(["rt", "run"], cwd=CRATE, stdin=given, capture_output=True, text=True)
    if build.returncode:
        fail(f"listing_main is not built\n{build.stdout}{build.stderr}")
    tried = []
    for given in cases():
        tried.append((given, answer_of(started(subprocess.PIPE), given), expected(given)))
    for given in FED:
        tried.append((given, fed(given), (expected(given), given[len(line_in(given)) :])))
    wrong = [(given, found, wanted) for given, found, wanted in tried if found != wanted]
    for given, found, wanted in wrong:
        print(f"{given[:40]!r}: found {found!r:.120}, not {wanted!r:.120}")
    say(f"{len(tried)} inputs, {len(wrong)} answered otherwise than the document says")
    sys.exit(1 if wrong else 0)


if __name__ == "__main__":
    main()
