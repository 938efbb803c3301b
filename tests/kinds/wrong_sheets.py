"""Write sheet made wrong, with other lines, another ending or another number of bytes, and by
another rule for what is refused; and Read sheet with frame 01 of either edition.
"""

from editions import other
from sheets import right_sheet
from wrong import Writer, anywhere, named, refused


def sheet_of(given):
    return right_sheet(given.profile(), given.content("signature"), given.content("message"))


WRITER = Writer("sheet", sheet_of)
each = WRITER.framed


def by_lines(lines_of):
    return WRITER.changed(lambda sheet: b"".join(lines_of(sheet.splitlines(True))))


def counted_from_1(frame):
    return frame[:1] + bytes([frame[1] + 1]) + frame[2:]


def siblings_first(lines):
    falling = sorted(lines[4:-1], key=lambda line: line[:2], reverse=True)
    return lines[:4] + falling + lines[-1:]


MADE = WRITER.wrong() | {
    "no first line": by_lines(lambda lines: lines[1:]),
    "l and w exchanged": each(1, lambda f: f[:1] + f[2:0:-1] + f[3:]),
    "w and h exchanged": each(1, lambda f: f[:2] + f[3:1:-1] + f[4:]),
    "s least byte first": each(1, lambda f: f[:4] + f[5:3:-1] + f[6:]),
    "no last byte in edition 2": each(1, lambda f: f[:-1], [2]),
    "01 for edition 2": each(1, lambda f: f[:-1] + b"\1", [2]),
    "02 in edition 1": each(1, lambda f: f + b"\2", [1]),
    "01 in edition 1": each(1, lambda f: f + b"\1", [1]),
    "the leaf's least byte first": each(2, lambda f: f[:1] + f[:0:-1]),
    "R before the leaf": by_lines(lambda lines: lines[:2] + lines[3:1:-1] + lines[4:]),
    "chains from 1": each(4, counted_from_1),
    "heights from 1": each(5, counted_from_1),
    "siblings before values": by_lines(siblings_first),
    "04 before siblings": each(5, lambda f: b"\4" + f[1:]),
    "the text's last byte missing": each(6, lambda f: f[:-1]),
    "11 for a leaf that the tree has not": refused("sheet", 11, lambda g: g.leaf() >= 1 << g["h"]),
}


def either_taken(right, given):
    """Read sheet with frame 01 of either edition."""
    outcome = right()
    return outcome if outcome != 17 else right(edition=other(given["edition"]))


def wrong():
    for what, function in MADE.items():
        yield what, "write_sheet", function, anywhere
    yield "either frame taken", "read_sheet", either_taken, named("last")
