"""Test vectors of Read sheet: right sheets of both editions, sheets of one where the other is
expected, and sheets with a line that is wrong, missing or too many; and of Write sheet.
"""

import itertools

import editions
from sheets import hex_line, profile_frame, right_sheet, sheet_length
from signatures import GATE, GATE_2, Profile, reserved_key, sign, signature_length
from vector_calls import LONG_ORDER, ORDER, SECRET, SEED, SMALL, R, derived, flipped, held, vector
from written_sheets import LEAVES, SLICES, answer_to
from zarosnik import table_length

SMALL_2 = SMALL._replace(edition=2)
SIGNATURE = derived("signature", signature_length(SMALL))
ANY_BYTES = bytes(range(32)) + b"\xff"
# What the lines of the small profile's sheet carry.
LINES = ["first line", "profile", "leaf", "R", "value", "value", "value", "sibling", "text"]
PROFILE_BYTES = ["l", "w", "h", "high byte of s", "low byte of s"]


def read(note, p, sheet, more=0, message=200):
    """With so many bytes more than needed for the signature, and so many in all for the text."""
    size = signature_length(p) + more
    return vector("read_sheet", note, p, sheet=sheet, signature=size, message=message)


def wrong_at(line, made):
    """The vector, which must be refused by 17 with this line, or with any where it is None."""
    if line not in (None, made["out"]["line"]):
        raise ValueError(f"not refused with line {line}: {made}")
    return held(17, made)


def with_line(lines, at, changed):
    return b"".join([*lines[:at], changed, *lines[at + 1 :]])


def spelt_otherwise(lines, at):
    """Words, and sheets with a line spelt in another way."""
    line, name = lines[at], LINES[at]
    for note, changed in {
        "missing": b"",
        "twice": line + line,
        "empty": b"\n",
        "with a digit less": line[:-2] + b"\n",
        "in lower case": line.lower(),
        "with the digit G": b"G" + line[1:],
        "ended by 0D 0A": line[:-1] + b"\r\n",
        "with a space at its end": line[:-1] + b" \n",
        "of another kind": hex_line(flipped(bytes.fromhex(line.decode()), 0)),
    }.items():
        if changed != line:
            yield f"line {at + 1}, {name}, {note}", with_line(lines, at, changed)


def other_profile_bytes(p, lines, names):
    for at, name in enumerate(names):
        changed = hex_line(flipped(profile_frame(p), at + 1))
        yield f"line 2, profile, another {name}", with_line(lines, 1, changed)


def wrong_lines(lines):
    """Words, and sheets with one line changed."""
    frames = [bytes.fromhex(line.decode()) for line in lines]
    for at, name in enumerate(LINES):
        yield from spelt_otherwise(lines, at)
        if name != "text":
            for note, other in [("less", frames[at][:-1]), ("more", frames[at] + b"\0")]:
                changed = with_line(lines, at, hex_line(other))
                yield f"line {at + 1}, {name}, with a byte {note}", changed
    yield from other_profile_bytes(SMALL, lines, PROFILE_BYTES)
    for at, name in [(4, "chain"), (7, "height")]:
        changed = with_line(lines, at, hex_line(flipped(frames[at], 1)))
        yield f"line {at + 1}, another {name}", changed
    for size in (0, 201):
        text = hex_line(b"\x06" + derived("text", size))
        yield f"line 9, text of {size} bytes", with_line(lines, 8, text)
    exchanged = b"".join([*lines[:4], lines[5], lines[4], *lines[6:]])
    yield "the first two values in the other order", exchanged
    yield "three lines wrong: the first is told", b"".join(lines).replace(b"\n04", b"\n14")


def wrong_ends(lines):
    """Words, and sheets that end too early or too late."""
    sheet = b"".join(lines)
    for kept in range(len(lines)):
        yield f"cut behind {kept} whole lines", b"".join(lines[:kept])
    yield "cut within line 5", b"".join(lines[:4]) + lines[4][:20]
    yield "the last line without 0A", sheet[:-1]
    for note, more in [("a digit", b"0"), ("the byte 0A", b"\n"), ("a second sheet", sheet)]:
        yield f"{note} behind the last line", sheet + more


def right_sheets(p):
    for note, text in [
        ("a right sheet", ORDER),
        ("a text of one byte", b"0"),
        ("a text of 200 bytes", LONG_ORDER),
        ("a text of any bytes", ANY_BYTES),
    ]:
        yield read(note, p, right_sheet(p, SIGNATURE, text))
    no_leaf = right_sheet(p, b"\xff" * 4 + SIGNATURE[4:], ORDER)
    yield read("a leaf that the key does not have", p, no_leaf)
    sheet = right_sheet(p, SIGNATURE, ORDER)
    yield read("slices just long enough", p, sheet, 0, len(ORDER))
    yield read("longer slices", p, sheet, 3, len(ORDER) + 2)
    yield read("6: signature slice too short", p, sheet, -1)
    yield read("6: text slice too short", p, sheet, 0, len(ORDER) - 1)


def gate_signature(p):
    """Of the first order."""
    size, words = signature_length(p), table_length(p.l, p.s)
    return sign(reserved_key(p, SEED, SECRET, 0), R, ORDER, [0] * words, bytes(size))[2]


def gate_sheet(p):
    return right_sheet(p, gate_signature(p), ORDER)


def small_sheets():
    yield from right_sheets(SMALL)
    sheet = right_sheet(SMALL, SIGNATURE, ORDER)
    lines = sheet.splitlines(keepends=True)
    for note, wrong in [*wrong_lines(lines), *wrong_ends(lines)]:
        yield wrong_at(None, read(note, SMALL, wrong))
    yield read("the sheet of another profile", SMALL._replace(h=2), sheet)
    sheet = gate_sheet(GATE)
    lines = sheet.splitlines(keepends=True)
    yield read("the first order of the gate profile", GATE, sheet)
    yield read("without siblings", GATE, b"".join(lines[:38] + lines[48:]))
    yield read("a line behind the last", GATE, sheet + lines[-1])


def second_edition():
    """Right sheets; line 2 other than it must be; and an end too early or too late."""
    yield from right_sheets(SMALL_2)
    lines = right_sheet(SMALL_2, SIGNATURE, ORDER).splitlines(keepends=True)
    for note, sheet in spelt_otherwise(lines, 1):
        yield wrong_at(None, read(note, SMALL_2, sheet))
    for note, sheet in other_profile_bytes(SMALL_2, lines, [*PROFILE_BYTES, "last byte"]):
        yield wrong_at(2, read(note, SMALL_2, sheet))
    for note, sheet in wrong_ends(lines):
        yield wrong_at(None, read(note, SMALL_2, sheet))
    yield read("the first order of the gate profile", GATE_2, gate_sheet(GATE_2))


def crossed_sheets():
    """What frame 01 may end with, for either edition; and a sheet of one edition where the other is
    expected, also with more that is wrong, before and after."""
    sheet = right_sheet(SMALL, SIGNATURE, ORDER)
    for edition, last in editions.SHEETS:
        p, line = SMALL._replace(edition=edition), editions.line_to(edition, last)
        made = read(editions.last_told(edition, last), p, editions.with_last(p, sheet, last))
        yield wrong_at(line, made) if line else made
    for p, other in [(GATE, GATE_2), (GATE_2, GATE)]:
        sheet = gate_sheet(p)
        told = f"the sheet of edition {p.edition}, edition {other.edition} expected"
        yield wrong_at(2, read(told, other, sheet))
        yield wrong_at(2, read(f"{told}, the last line without 0A", other, sheet[:-1]))
        yield wrong_at(1, read(f"{told}, in lower case", other, sheet.lower()))
        short = 3 - signature_length(other)
        yield wrong_at(2, read(f"{told}, slices too short", other, sheet, short, 3))


# Texts that are written with slices of each length, and those written besides.
EDGE_TEXTS = [b"", b"0", LONG_ORDER, derived("text", 201)]
TEXTS = {"the order": ORDER, "a text of any bytes": ANY_BYTES}
TEXTS |= {f"text length {size}": derived("text", size) for size in (2, 15, 16, 100, 199)}
LENGTHS = {
    "the shortest sheet": (Profile(1, 2, 0, 0, 1), b"0"),
    "the longest sheet": (Profile(40, 16, 300, 10, 2), LONG_ORDER),
}


def written(note, p, signature, text=ORDER, more=3):
    """Into a slice with so many bytes more than needed."""
    size = sheet_length(p, len(text)) + more
    return vector("write_sheet", note, p, signature=signature, message=text, sheet=size)


def sheets_written():
    for p in (SMALL, SMALL_2):
        for text, slices in itertools.product(EDGE_TEXTS, SLICES):
            more, room, _ = SLICES[slices]
            shown, note = (SIGNATURE + b"\0")[: len(SIGNATURE) + more], f"text length {len(text)}"
            made = written(f"{note}, {slices}", p, shown, text, room)
            yield held(answer_to(len(text), slices), made)
        for note, text in TEXTS.items():
            yield written(note, p, SIGNATURE, text)
        for note, leaf in LEAVES.items():
            yield written(note, p, leaf(p.h).to_bytes(4, "big") + SIGNATURE[4:])
        yield written("13: no signature", p, b"", ORDER, 0)
    for note, (p, text) in LENGTHS.items():
        yield written(note, p, derived("signature", signature_length(p)), text)
    for p in (GATE, GATE_2):
        yield written("the first order of the gate profile", p, gate_signature(p))


def sheets_family():
    for part in (small_sheets, second_edition, crossed_sheets, sheets_written):
        yield from part()
