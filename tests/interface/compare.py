"""Compares the C interface with the independent implementation, through the archive that C programs
link: thousands of random calls, each compared in its answer and in all memory that it was lent, at
three places, of which two lie against pages that end the process where a call touches them.

    python3 tests/interface/compare.py                          the share that the gate runs
    python3 tests/interface/compare.py --seed 2 --count 200000  a long run: other and more calls
    python3 tests/interface/compare.py --seed 1 --case 1234     one case again, by a failure's name

Proves the library and writes the archive first, unless --archive names one. Fails at the first call
that is not as the scope document says, and where a kind of calls has not come up that must: the
modules listed in tests/kinds/met.py say which.
"""

import itertools
import multiprocessing
import sys
import tempfile
from collections import Counter

from paths import fail, say

import signatures
from archived import archive_of, archive_parser, shared_object
from calls import load
from cases import case
from memory import unguarded
from met import MODULES, Met
from operations import TABLE, numbers_told

COUNT = 19000
# The implementation keeps what it has hashed. After so many cases it is let go.
CASES_KEPT = 500


def say_failure(seed, number, call, lines):
    say(f"failed at --seed {seed} --case {number}: {call}")
    for line in lines:
        say(line)


def compare(library, seed, numbers, count, at):
    """Makes the calls of the cases until there are enough. Notes which call it is at. What has come
    up, and the answers of each operation."""
    met, outcomes = Met(), Counter()
    for number in numbers:
        for place, call in enumerate(case(seed, number)):
            at[:] = number, place
            wrong = call.make(library)
            if wrong:
                say_failure(seed, number, call, wrong)
                sys.exit(1)
            met.add(call)
            outcomes[call.operation, call.outcome] += 1
        if number % CASES_KEPT == 0:
            for kept in (signatures.seeded, signatures.key_of_leaf, signatures.node):
                kept.cache_clear()
        if outcomes.total() >= count:
            break
    return met, outcomes


def run(path, options, at):
    """Compares, and asks whether everything has come up."""
    for line in unguarded():
        fail(f"the tests would not see that a call did {line}")
    numbers = itertools.count() if options.case is None else [options.case]
    met, outcomes = compare(load(path), options.seed, numbers, options.count, at)
    for operation in TABLE:
        told = [f"{n}: {outcomes[operation, n]}" for n in [0, *numbers_told(operation)]]
        say(f"{operation}: {', '.join(told)}")
    wanted = {module: module.wanted() for module in MODULES if options.case is None}
    missing = list(met.missing(wanted))
    for line in missing:
        say(f"has not come up: {line}")
    left = f", but {len(missing)} things have not come up" if missing else ""
    say(f"seed {options.seed}, {outcomes.total()} calls: no difference{left}")
    sys.exit(1 if missing else 0)


def run_apart(path, options):
    """Runs in a process of its own, so that a call that brings it down is told too."""
    context = multiprocessing.get_context("fork")
    at = context.Array("Q", 2, lock=False)
    process = context.Process(target=run, args=(path, options, at))
    process.start()
    process.join()
    if process.exitcode < 0:
        number, place = at
        call = next(itertools.islice(case(options.seed, number), place, None))
        say_failure(options.seed, number, call, [f"ended by signal {-process.exitcode}"])
    return process.exitcode


def main():
    parser = archive_parser("Compares the C interface with tests/*.py.")
    parser.add_argument("--seed", type=int, default=1)
    parser.add_argument("--count", type=int, default=COUNT, help="how many calls at least")
    parser.add_argument("--case", type=int, help="only the case with this number")
    options = parser.parse_args()
    archive = archive_of(options)
    with tempfile.TemporaryDirectory() as folder:
        sys.exit(1 if run_apart(shared_object(archive, folder), options) else 0)


if __name__ == "__main__":
    main()
