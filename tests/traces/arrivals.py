"""Holds the library to what document 02 says in point 4 of whole lists of checks: a key's issued
orders, by two routes, at a cabinet that starts fresh and goes from check to check. Point 6 has it
so in either edition, the cabinet's being the key's.

    python3 tests/traces/arrivals.py [--archive FILE]

All leaves are reserved and all orders signed and checked through C. The cabinet is the two words
that the library hands back. Beside it stands the set of the leaves accepted so far; what must be
answered and left is taken from that by the document's words.

- Where each order comes before any leaf 32 or more above it, all are accepted, whatever refused
  checks come between. In other arrival orders just those are refused that come too late, by 14.
- No leaf is accepted twice: each order accepted is sent again at once, later and at the end.

Every check must report l (w - 1) - s steps where it is accepted or refused by 15, and 0 otherwise.
Fails too where one of these has not come up in either edition. Lists of reserve and sign, with cuts
between, are those of tests/interface/compare.py and of power_cuts.py.
"""

import itertools
import random
import tempfile
from collections import Counter, namedtuple

from paths import fail, say

import editions
from archived import archive_of, archive_parser, shared_object
from calls import by_name, load
from signatures import EDITIONS, Profile, SigningKey, Verifier, message_number, root_of
from signatures import signature_length
from zarosnik import table_length

# Marks of a cabinet, by the document. The rule is written here once more, so this is no import.
MARKS = 32
# From here on distances are far.
FAR = MARKS + 2
# Few steps and trees that are cheap to sign under; of 128 and of 256 leaves.
SHAPES = [(7, 3, 5, 7), (10, 4, 15, 8)]
PROFILES = [Profile(*shape, edition) for edition in EDITIONS for shape in SHAPES]
# How many arrival orders of each drawn kind for each profile.
DRAWN_ORDERS = 6
AGAIN = ["again at once", "again later", "again at the end"]
# Checks that are refused, with their answers; 14 comes before 15.
DISTURBED = {"a short work slice": (5,)}
DISTURBED |= dict.fromkeys(["another text", "another root", "the other edition"], (14, 15))

Order = namedtuple("Order", "leaf text signature")


def hold(holds, what):
    if not holds:
        fail(what)


class Key:
    """A fresh key of a profile, whose orders are signed through C, leaf by leaf."""

    def __init__(self, library, pick, p):
        self.library, self.p = library, p
        self.seed, self.secret = pick.randbytes(16), pick.randbytes(16)
        self.root = root_of(p, self.seed, self.secret)
        self.words, self.orders = table_length(p.l, p.s), {}
        for leaf in range(2**p.h):
            key = SigningKey(p, self.seed, self.secret, leaf, 0)
            granted, left = by_name(library, "reserve", key)
            hold((granted, *left.values()) == (0, leaf + 1, 1), f"{left} of leaf {leaf} at {p}")
            text = pick.randbytes(pick.randrange(1, 40))
            given = {"r": pick.randbytes(16), "message": text, "table": self.words}
            given["signature"] = signature_length(p)
            outcome, left = by_name(library, "sign", key._replace(next=leaf + 1, mark=1), **given)
            signature = left["signature"]
            found = outcome, left["mark"], int.from_bytes(signature[:4], "big")
            hold(found == (0, 0, leaf), f"{found} of leaf {leaf} at {p}")
            self.orders[leaf] = Order(leaf, text, signature)

    def number(self, order, p=None):
        r = order.signature[4:20]
        return message_number(p or self.p, r, self.seed, self.root, order.leaf, order.text)


class Run:
    """A fresh cabinet, and beside it the set of the leaves accepted. Counts what comes up."""

    def __init__(self, pick, key, met):
        self.pick, self.key, self.met = pick, key, met
        self.window, self.accepted = (0, 0), set()

    def passes(self, leaf):
        """14 now means a leaf 32 or more below the highest, or one already accepted; with no mark
        set any leaf is taken."""
        return leaf in self.accepted or leaf + MARKS <= max(self.accepted, default=0)

    def words(self):
        """The highest accepted leaf, and mark i where the leaf i below it was accepted."""
        highest = max(self.accepted, default=0)
        return highest, sum(2**i for i in range(MARKS) if highest - i in self.accepted)

    def expect(self, what, outcome, order, p=None, root=None, short=0):
        """A check that must be answered so; after it the cabinet must be as the set says."""
        key = self.key
        verifier = Verifier(p or key.p, key.seed, root or key.root, *self.window)
        given = {"message": order.text, "signature": order.signature, "table": key.words - short}
        found, left = by_name(key.library, "verify", verifier, **given)
        self.window = left["highest_leaf"], left["marks"]
        if outcome == 0:
            self.accepted.add(order.leaf)
        steps = key.p.l * (key.p.w - 1) - key.p.s if outcome in (0, 15) else 0
        found, wanted = (found, left["steps"], *self.window), (outcome, steps, *self.words())
        told = f"{what}, leaf {order.leaf} at {key.p}, accepted {sorted(self.accepted)}"
        hold(found == wanted, f"{told}: {found}, not {wanted}")
        self.met[what, outcome] += 1

    def arrive(self, what, leaf):
        """An order as it was signed. Whether it is accepted."""
        outcome = 14 if self.passes(leaf) else 0
        if self.accepted:
            self.met[what, outcome, max(-FAR, min(leaf - max(self.accepted), FAR))] += 1
        self.expect(what, outcome, self.key.orders[leaf])
        return outcome == 0

    def replay(self, what, *leaves):
        """Orders that were accepted."""
        for leaf in leaves:
            self.expect(what, 14, self.key.orders[leaf])

    def disturb(self):
        """A check of any order that must be refused. Where numbers are few, another text or the
        other edition may have the same one: then nothing is checked."""
        pick, key = self.pick, self.key
        order = pick.choice(list(key.orders.values()))
        other = order._replace(text=pick.randbytes(pick.randrange(1, 40)))
        crossed = key.p._replace(edition=editions.other(key.p.edition))
        number, judged = key.number(order), 14 if self.passes(order.leaf) else 15
        differs = key.number(order, crossed) != number
        checks = {
            "a short work slice": (True, 5, order, {"short": 1}),
            "another root": (True, judged, order, {"root": pick.randbytes(16)}),
            "another text": (key.number(other) != number, judged, other, {}),
            "the other edition": (differs, judged, order, {"p": crossed}),
        }
        what = pick.choice(list(checks))
        differs, outcome, given, changed = checks[what]
        if differs:
            self.expect(what, outcome, given, **changed)


# Arrival orders. Each is made by choosing the next leaf among those that wait and are less than a
# reach above the lowest of them: with a reach of 32 these are all the orders in which each leaf
# comes before any that is 32 or more above it.


def arriving(count, reach, choose):
    waiting, came = list(range(count)), []
    while waiting:
        came.append(choose([leaf for leaf in waiting[:reach] if leaf < waiting[0] + reach]))
        waiting.remove(came[-1])
    return came


def comes_in_time(leaves):
    """The sentence itself: each comes before any leaf 32 or more above it."""
    return all(above < leaf + MARKS for above, leaf in itertools.combinations(leaves, 2))


def lowest(leaves):
    return leaves[0]


def farthest(leaves):
    return leaves[-1]


def last_then_others(reach):
    """The farthest that may come, then those below it: 31, 0 to 30, 63, 32 to 62, .."""
    return lambda leaves: leaves[-1] if len(leaves) == reach else leaves[0]


def turn_about():
    """The farthest, the lowest, the farthest, ..: each low one comes as late as it may."""
    places = itertools.cycle([-1, 0])
    return lambda leaves: leaves[next(places)]


def jumps(count, reach):
    """Where all below has come, up by 1, then by 2, .. by the reach; then what was left out. So
    many arrival orders that each jump is made."""
    ups = itertools.cycle(range(reach))
    choose = lambda leaves: leaves[next(ups) if len(leaves) == reach else 0]
    return [arriving(count, reach, choose) for _ in range(2 + sum(range(reach + 1)) // count)]


def mixed(pick, reach):
    """Now one way, now another."""
    ways = [pick.choice, lowest, farthest, last_then_others(reach), turn_about()]
    way = [pick.choice(ways)]

    def choose(leaves):
        if pick.random() < 0.1:
            way[0] = pick.choice(ways)
        return way[0](leaves)

    return choose


def two_routes(pick, count, most):
    """One route is slower than the other, by so many orders at most."""
    slow = pick.randrange(most + 1)
    times = [leaf + pick.choice([0, slow, pick.randrange(most + 1)]) for leaf in range(count)]
    return sorted(range(count), key=lambda leaf: (times[leaf], pick.random()))


def orders_in_time(pick, count):
    for choose in (lowest, farthest, pick.choice, last_then_others(MARKS), turn_about()):
        yield arriving(count, MARKS, choose)
    yield from jumps(count, MARKS)
    for _ in range(DRAWN_ORDERS):
        yield arriving(count, MARKS, mixed(pick, MARKS))
        yield two_routes(pick, count, MARKS - 1)


def orders_too_late(pick, count):
    for reach in (MARKS + 1, MARKS + 2, 2 * MARKS, count):
        for choose in (last_then_others(reach), turn_about(), farthest):
            yield arriving(count, reach, choose)
    yield from jumps(count, FAR)
    for _ in range(DRAWN_ORDERS):
        reach = pick.choice([MARKS + 1, MARKS + 8, 2 * MARKS, count])
        yield arriving(count, reach, mixed(pick, reach))
        yield two_routes(pick, count, reach)
        yield pick.sample(range(count), count)


def receive(what, pick, key, leaves, met):
    """All orders, with refused checks between, and each accepted one again: at once, later and at
    the end. Just where the orders do not come in time, some are refused."""
    run, refused = Run(pick, key, met), []
    for leaf in leaves:
        while pick.random() < 0.3:
            run.disturb()
        if run.arrive(what, leaf):
            run.replay("again at once", leaf)
        else:
            refused.append(leaf)
        if pick.random() < 0.3:
            run.replay("again later", pick.choice(sorted(run.accepted)))
    run.replay("again at the end", *sorted(run.accepted))
    hold(bool(refused) != comes_in_time(leaves), f"refused at {key.p}: {refused} of {leaves}")
    hold(what != "in time" or not refused, f"drawn otherwise: {leaves}")
    met[f"lists {what}"] += bool(refused) == (what == "too late")


def missing(met):
    """What has not come up."""
    below, up, too_late = range(1 - MARKS, 0), range(1, FAR + 1), range(-FAR, 1 - MARKS)
    aways = {("in time", 0): [*below, *up[:MARKS]]}
    aways |= {("too late", 0): [*below, *up], ("too late", 14): too_late}
    wanted = [(*kind, away) for kind, found in aways.items() for away in found]
    wanted += [(what, outcome) for what, told in DISTURBED.items() for outcome in told]
    wanted += [(again, 14) for again in AGAIN] + ["lists in time", "lists too late"]
    return [kind for kind in wanted if not met[kind]]


def main():
    archive = archive_of(archive_parser("Holds lists of checks to point 4.").parse_args())
    pick, met_in = random.Random("arrivals"), {edition: Counter() for edition in EDITIONS}
    with tempfile.TemporaryDirectory() as folder:
        library = load(shared_object(archive, folder))
        for p in PROFILES:
            met, key = met_in[p.edition], Key(library, pick, p)
            for what, drawn in (("in time", orders_in_time), ("too late", orders_too_late)):
                for leaves in drawn(pick, len(key.orders)):
                    receive(what, pick, key, leaves, met)
            met["orders"] += len(key.orders)
    for edition, met in met_in.items():
        lacking = missing(met)
        hold(not lacking, f"has not come up in edition {edition}: {lacking}")
    met = sum(met_in.values(), Counter())
    disturbed = sum(met[what, told] for what, outcomes in DISTURBED.items() for told in outcomes)
    say(
        f"{met['orders']} orders signed, {met_in[2]['orders']} of them in edition 2;"
        f" {met['lists in time']} arrival orders in time, all {met['in time', 0]} accepted;"
        f" {met['lists too late']} others, {met['too late', 14]} too late and refused by 14,"
        f" {met['too late', 0]} accepted; {sum(met[again, 14] for again in AGAIN)} replays and"
        f" {disturbed} other checks refused, which change nothing"
    )


if __name__ == "__main__":
    main()
