"""Editions of a profile: the numbers that must come up as one, each with its answer where nothing
else may refuse the call; orders that were signed in the other edition; and what may stand behind s
in frame 01 of a sheet.
"""

import itertools

from operations import EDITED
from sheets import FIRST, hex_line, profile_frame
from signatures import EDITIONS, Verifier, check
from zarosnik import table_length

OPERATIONS = EDITED
MOST_WORD = 2**32 - 1
# Both editions, their neighbours, and the end of what a number can be.
TRIED = [0, *EDITIONS, 3, MOST_WORD]
# What stands behind s in digits, two a byte; and what else may be found there.
RIGHT_LAST = {1: "", 2: "02"}
LAST = ["", "00", "01", "02", "03", "12", "20", "82", "FF"]
LAST += ["2", "022", "0200", "0201", "0202", "0002", "0102", " 02"]
SHEETS = list(itertools.product(EDITIONS, LAST))


def answer_to(edition):
    return 0 if edition in EDITIONS else 22


def other(edition):
    """Of two."""
    return sum(EDITIONS) - edition


def head(p):
    """The first line of a sheet, and the second up to s."""
    return hex_line(FIRST) + hex_line(profile_frame(p._replace(edition=1)))[:-1]


def with_last(p, sheet, last):
    """The sheet with these digits behind s."""
    rest = sheet[len(head(p)) :]
    return head(p) + last.encode("ascii") + rest[rest.index(b"\n") :]


def last_of(p, sheet):
    """The digits behind s, or None where the lines before are others or line 2 does not end."""
    rest, end, _ = sheet.removeprefix(head(p)).partition(b"\n")
    return rest.decode("latin-1") if end and sheet.startswith(head(p)) else None


def line_to(edition, last):
    """The wrong line of a sheet that is right but for these digits, or 0."""
    return 0 if last == RIGHT_LAST[edition] else 2


def last_told(edition, last):
    return f"{last or 'nothing'} behind s in frame 01 where edition {edition} is expected"


def taken_by_other(call):
    """Whether a fresh verifier of the other edition takes the order of a check."""
    p, given = call.profile(), call.given
    p = p._replace(edition=other(p.edition))
    verifier = Verifier(p, given["public_seed"], given["root"], 0, 0)
    work = [0] * table_length(p.l, p.s)
    return check(verifier, given["message"], given["signature"], work)[0] == 0


def kinds_of(call):
    operation, outcome, p = call.operation, call.outcome, call.profile()
    yield operation, outcome, f"edition {p.edition}"
    if operation == "read_sheet" and outcome in (0, 17):
        last = last_of(p, call.given["sheet"])
        if last is not None:
            yield operation, f"line {call.left['line']}", last_told(p.edition, last)
    if (operation, outcome) == ("verify", 15) and taken_by_other(call):
        yield operation, outcome, f"the order of the other than edition {p.edition}"


def wanted():
    for operation, edition in itertools.product(EDITED, TRIED):
        yield operation, answer_to(edition), f"edition {edition}"
    for edition, last in SHEETS:
        yield "read_sheet", f"line {line_to(edition, last)}", last_told(edition, last)
    for edition in EDITIONS:
        yield "verify", 15, f"the order of the other than edition {edition}"


def told(kind):
    return "{} answers {}: {}".format(*kind)
