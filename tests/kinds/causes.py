"""What every operation must come to: granted; refused for each cause and for each two; with numbers
of the profile that narrower parameters would cut to right ones or that are 2^31 or 2^32 - 1; and,
with each answer, with something past the named length of each slice and in each state, where alone
it is seen to stay.
"""

import itertools

from operations import CAUSES, LENT, STATES, TABLE, numbers_told

OPERATIONS = list(TABLE)
PAST_WORD = 1 << 32
# For each number of the profile, the cause of refusal where it is out of its range, and the bits of
# the narrowest parameter that holds this range. It would cut wider numbers.
CUTS = {1: 8, 2: 8, 3: 16, 4: 8, 22: 8}
# What wide numbers may be: good but for bits that a cut drops, or these.
CUT = "cut to good ones"
WIDE = [CUT, PAST_WORD // 2, PAST_WORD - 1]


def subsets(causes, most):
    return [laid for n in range(1, most + 1) for laid in itertools.combinations(causes, n)]


def wide_numbers(operation):
    """Each set of numbers of the profile, by their causes, with each way in which they are wide.
    The edition is among them alone, with one other, and with all."""
    causes = [cause for cause in CAUSES[operation] if cause in CUTS]
    sets = subsets(causes, len(causes))
    some = [laid for laid in sets if 22 not in laid or len(laid) in (1, 2, len(causes))]
    return list(itertools.product(some, WIDE))


def kept_by(operation):
    return [*LENT[operation], *STATES[operation]]


def kinds_of(call):
    operation, outcome = call.operation, call.outcome
    if outcome == 0:
        yield operation, "granted", ()
    for later in ((), *((cause,) for cause in call.causes[1:])):
        yield operation, "refused for", (*call.causes[:1], *later)
    if call.stated and call.stated[0] == "wide":
        yield operation, "given wide numbers", call.stated[1:]
    for name in kept_by(operation):
        memory = call.memory[name]
        if memory.spare if name in LENT[operation] else any(memory.before):
            yield operation, "something left in", (outcome, name)


def wanted():
    for operation, causes in CAUSES.items():
        yield operation, "granted", ()
        yield from ((operation, "refused for", laid) for laid in subsets(causes, 2))
        yield from ((operation, "given wide numbers", wide) for wide in wide_numbers(operation))
        for answer in itertools.product([0, *numbers_told(operation)], kept_by(operation)):
            # of a slice that is too short nothing is left
            if LENT[operation].get(answer[1]) != answer[0]:
                yield operation, "something left in", answer


def told(kind):
    return "{} {} {}".format(*kind)
