"""Read sheet, Write sheet, and the sheets that are right: an implementation of the scope document
and of the later requests that is independent of the library.

No slice is changed: the reader answers with the number of its refusal, or 0, the number of the wrong
line, or 0, the length of the text, and both slices as the call leaves them; the writer with that
number, the bytes written, and its slice.
"""

from signatures import pieces, profile_causes, signature_length, text_cause
from zarosnik import first_cause

FIRST = bytes.fromhex("474F31")
DIGITS = b"0123456789ABCDEF"


def profile_frame(p):
    """The last byte says edition 2, and edition 1 has none."""
    return bytes([1, p.l, p.w, p.h]) + p.s.to_bytes(2, "big") + b"\x02" * (p.edition == 2)


def frames(p, signature, text):
    """The bytes of each line."""
    yield FIRST
    yield profile_frame(p)
    yield b"\x02" + signature[:4]
    yield b"\x03" + signature[4:20]
    values = pieces(signature[20:])
    for chain in range(p.l):
        yield bytes([4, chain]) + values[chain]
    for height in range(p.h):
        yield bytes([5, height]) + values[p.l + height]
    yield b"\x06" + text


def hex_line(frame):
    return frame.hex().upper().encode("ascii") + b"\n"


def right_sheet(p, signature, text):
    return b"".join(hex_line(frame) for frame in frames(p, signature, text))


def sheet_length(p, size):
    """With a text of so many bytes, of two digits each."""
    return len(right_sheet(p, bytes(signature_length(p)), b"")) + 2 * size


def forms(p):
    """For each line the bytes that are fixed, and how few and how many follow them."""
    yield FIRST, 0, 0
    yield profile_frame(p), 0, 0
    yield b"\x02", 4, 4
    yield b"\x03", 16, 16
    for chain in range(p.l):
        yield bytes([4, chain]), 16, 16
    for height in range(p.h):
        yield bytes([5, height]), 16, 16
    yield b"\x06", 1, 200


def line_bytes(line):
    """The bytes that the digits of a line give, or None where it has others or an odd number."""
    if len(line) % 2 or any(digit not in DIGITS for digit in line):
        return None
    return bytes.fromhex(line.decode("ascii"))


def read_frames(p, sheet):
    """The number of the first wrong line, or 0, and what each line carries."""
    carried = []
    rest = sheet
    for fixed, low, high in forms(p):
        line, end, rest = rest.partition(b"\n")
        frame = line_bytes(line) if end else None
        if frame is None or not frame.startswith(fixed):
            return len(carried) + 1, []
        if not low <= len(frame) - len(fixed) <= high:
            return len(carried) + 1, []
        carried.append(frame[len(fixed) :])
    return (len(carried) + 1, []) if rest else (0, carried)


def read_sheet(p, sheet, signature, text):
    """The outcome, the wrong line, the text's length, the signature's slice, the text's slice."""
    refused = first_cause(profile_causes(p))
    if refused:
        return refused, 0, 0, signature, text
    wrong, carried = read_frames(p, sheet)
    if wrong:
        return 17, wrong, 0, signature, text
    shown, order = b"".join(carried[:-1]), carried[-1]
    if len(signature) < len(shown) or len(text) < len(order):
        return 6, 0, 0, signature, text
    return 0, 0, len(order), shown + signature[len(shown) :], order + text[len(order) :]


def write_sheet(p, signature, text, sheet):
    """The outcome, the number of bytes written, the sheet's slice. Any leaf is written."""
    refused = first_cause(
        profile_causes(p)
        + text_cause(text)
        + [
            (13, lambda: len(signature) != signature_length(p)),
            (6, lambda: len(sheet) < sheet_length(p, len(text))),
        ]
    )
    if refused:
        return refused, 0, sheet
    written = right_sheet(p, signature, text)
    return 0, len(written), written + sheet[len(written) :]
