"""Shows that tests/interface/compare.py sees a wrong library: makes one function wrong at a time,
around the right one, and looks in that test's cases for a call that differs or ends the process.

    python3 tests/interface/mutants.py [--archive FILE]

What is wrong is a rule, as a maker may misread it, or the way in which a function is called: the
modules of tests/kinds/ below say it. A function that is wrong for one kind of calls alone, one
length, one shape, one count, is none of them: that each kind comes up is what the comparison waits
for. Of rules that differ in every granted call, few are tried.
"""

import os
import random
import sys
import tempfile

from paths import fail, say

import shapes
import wrong_calls
import wrong_keys
import wrong_orders
import wrong_sheets
import wrong_windows
from archived import archive_of, archive_parser, shared_object
from calls import load
from cases import beginning, plan
from wrong import NOTHING, Given

MODULES = [wrong_calls, wrong_orders, wrong_windows, wrong_sheets, wrong_keys]
ROUNDS = 6
SEEN, UNSEEN = 10, 11
# So many are tried at once.
AT_ONCE = os.cpu_count() or 1


def make_wrong(library, operation, wrong):
    """In the library as this process has it."""
    name = f"zarosnik_{operation}"
    function = getattr(library, name)

    def made(*values):
        given = Given(operation, values)
        return wrong(lambda **other: function(*(given.values | other).values()), given)

    setattr(library, name, made)


def seen(library, operation, where, rounds):
    """Whether a difference is found in the cases of an operation alone that are of these."""
    pick = random.Random(operation)
    cases = [case for case in [*beginning(), *plan()] if hasattr(case, "func")]
    cases = [case for case in cases if case.args[0] == operation and where(case)]
    for _ in range(rounds):
        pick.shuffle(cases)
        if any(call.make(library) for case in cases for call in case(pick)):
            return True
    return False


def begin(library, what, operation, wrong, where):
    """The same with the function made wrong, in a process of its own, which a call may end."""
    child = os.fork()
    if child == 0:
        status = 1
        try:
            make_wrong(library, operation, wrong)
            found = seen(library, operation, where, 1 if what == NOTHING else ROUNDS)
            status = SEEN if found else UNSEEN
        finally:
            os._exit(status)
    return child


def tried(library, functions):
    """What is wrong, with which operation, and whether it was seen, of each function."""
    running, rest = {}, iter(functions)
    while True:
        for what, operation, wrong, where in rest:
            running[begin(library, what, operation, wrong, where)] = what, operation
            if len(running) >= AT_ONCE:
                break
        if not running:
            return
        child, status = os.wait()
        what, operation = running.pop(child)
        if not os.WIFSIGNALED(status) and os.WEXITSTATUS(status) not in (SEEN, UNSEEN):
            fail(f"{operation}: {what} could not be tried")
        yield what, operation, os.WIFSIGNALED(status) or os.WEXITSTATUS(status) == SEEN


def main():
    archive = archive_of(archive_parser("Tries the comparison on wrong functions.").parse_args())
    # worked out once, and not in each process again
    for kept in (shapes.by_bits, beginning, plan):
        kept()
    with tempfile.TemporaryDirectory() as folder:
        library = load(shared_object(archive, folder))
        found = list(tried(library, (f for module in MODULES for f in module.wrong())))
    failed = [(what, operation) for what, operation, seen in found if seen == (what == NOTHING)]
    for what, operation in failed:
        say(f"{'seen' if what == NOTHING else 'not seen'}: {operation}: {what}")
    say(f"{len(found)} functions, {len(failed)} failed")
    sys.exit(1 if failed or not found else 0)


if __name__ == "__main__":
    main()
