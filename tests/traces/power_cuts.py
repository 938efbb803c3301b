"""Kills the desk of examples/store.c at every step and at any time, starts it again from what is
stored, and finds that no leaf signs twice and that a cabinet accepts every order handed out.

    python3 tests/traces/power_cuts.py [--archive FILE]
    python3 tests/traces/power_cuts.py --seed N          draws other keys, times and cuts

power_cuts.c goes between the desk and what it calls, and tells after a kill how far it had come.
The desk is killed by SIGKILL before and after each call and in the middle of each write, and at
times that are drawn. A kill leaves all that was written, a power cut only what the desk has waited
for: so where the two differ, the stored file is, by a draw, put back to the one that the disk is
sure to have. The file must be a whole frame, the old or the new; the desk starts again; its leaves
rise; its orders are accepted in the order of signing, with the right steps, by the independent
implementation. Where the system refuses a step of storing, nothing is signed. The seed fixes what
is drawn, not what a kill at a drawn time hits.

A disk that loses what fsync has waited for is not tried. Desks that are wrong in one place must be
caught: WRONG.
"""

import os
import random
import signal
import struct
import subprocess
import tempfile
import time
from collections import Counter, namedtuple
from pathlib import Path

from paths import ROOT, TESTS, fail, say

import sheets
import signatures
from archived import archive_of, archive_parser
from header import INCLUDE, WARNINGS
from keys import read_key, right_frame
from signatures import EDITIONS, Profile, SigningKey, Verifier
from zarosnik import table_length

DESK = ROOT / "examples" / "store.c"
BETWEEN = TESTS / "traces" / "power_cuts.c"
SEED = 5
# Small, so that signing takes milliseconds; the count is 266.
SHAPE = (7, 3, 5)
# Kills at drawn times: how many, by the height. With the lower tree most of a desk's time is
# storing, with the higher one signing. A time is at most that in which it signs so many orders; the
# texts of such a run are more than that.
DRAWN = {6: 220, 10: 80}
ORDERS, TEXTS = 6, 40
# Kills at each point, in which order of a run; and a desk's status where it fails.
TURNS, FAILED = (1, 2, 3), 100

# As in power_cuts.c: the calls of a desk in order, and the points of each.
CALLS = "read key,reserve,write key,create,write,fsync,close,rename,fsync of the folder,sign"
CALLS = f"{CALLS},write sheet,hand out".split(",")
PARTS = ["before", "within", "after"]
BEFORE, WITHIN, AFTER = range(3)
STORING = CALLS[CALLS.index("create") : CALLS.index("sign")]
WRAPPED = "openat write fsync close renameat zarosnik_read_key zarosnik_reserve zarosnik_write_key"
WRAPPED += " zarosnik_sign zarosnik_write_sheet"
SEEN = struct.Struct("4I96s1024I65536s")


def point(call, part):
    return CALLS.index(call) * len(PARTS) + part


def told(at):
    return f"{PARTS[at % len(PARTS)]} {CALLS[at // len(PARTS)]}"


# A kill in the middle is for writes alone.
POINTS = [
    point(call, part)
    for call in CALLS
    for part in (BEFORE, WITHIN, AFTER)
    if part != WITHIN or call in ("write", "hand out")
]
# Those of an order, and those that a signature comes of.
ORDER = [point(call, part) for call in CALLS[1:] for part in (BEFORE, AFTER)]
ISSUING = [point(call, BEFORE) for call in ("sign", "hand out")]


def whole_run(orders):
    return [point("read key", BEFORE), point("read key", AFTER), *(ORDER * orders)]


# What is wrong with a desk, and how it shows.
TWICE = "a leaf signs twice"
FRAME = "the stored file is neither the old frame nor the new"
STATUS = "the desk ends otherwise"
REFUSED = "an order is not accepted"
UNSTORED = "signed, though the store has failed"
STEPS = "other steps"

STORE_LINES = """    outcome = store(key);
    if (outcome != ZAROSNIK_GRANTED) {
        return outcome;
    }
"""
SIGNED_LINE = '    fprintf(stderr, "signed with leaf'
SHEET_LINE = "    uint8_t sheet[ZAROSNIK_SHEET_BYTES_MAX];\n"
READS = ("zarosnik_key_restart(key", "zarosnik_key_read_key(key")
# Each is a list of replacements in the desk's source, and what it must be caught by.
WRONG = {
    "hands out before it stores": (
        [(STORE_LINES, ""), (SIGNED_LINE, STORE_LINES + SIGNED_LINE)],
        TWICE,
    ),
    "signs before it stores": ([(STORE_LINES, ""), (SHEET_LINE, STORE_LINES + SHEET_LINE)], TWICE),
    "restarts with the mark": ([READS], f"{STATUS}: with 21"),
    "restarts with the mark and signs by it": (
        [READS, ("= zarosnik_key_reserve(key)", "= key->mark ? 0 : zarosnik_key_reserve(key)")],
        TWICE,
    ),
    "does not sync the folder": ([(" || fsync(folder) != 0", "")], TWICE),
    "does not sync the file": ([(" || fsync(file) != 0", "")], FRAME),
    "writes over the old frame": ([('STORED_NEW "key.new"', 'STORED_NEW "key"')], FRAME),
    "goes on after a failed store": (
        [(STORE_LINES, STORE_LINES.replace("return outcome;", "outcome = ZAROSNIK_GRANTED;"))],
        UNSTORED,
    ),
}


class Caught(Exception):
    """What is wrong, one of those above, and more words."""

    def __init__(self, what, more):
        super().__init__(f"{what}: {more}")


def build(archive, folder, name, replacements=()):
    text = DESK.read_text(encoding="utf-8")
    for old, new in replacements:
        if text.count(old) != 1:
            fail(f"not once in {DESK.name}: {old}")
        text = text.replace(old, new)
    source, program = folder / f"{name}.c", folder / name
    source.write_text(text, encoding="utf-8")
    wraps = [f"-Wl,--wrap={function}" for function in WRAPPED.split()]
    files = [str(source), str(BETWEEN), str(archive), "-o", str(program)]
    command = ["gcc", "-std=c11", "-O2", *WARNINGS, f"-I{INCLUDE}", *wraps, *files]
    subprocess.run(command, check=True)
    return program


# A run of the desk: how it ended, what it handed out, the points that it came to, the leaves that
# it signed with, and the frame that the disk has for certain, or None where that did not change.
Run = namedtuple("Run", "status out points leaves on_disk")


def seen_of(path):
    points, signatures_made, on_disk, size, frame, *rest = SEEN.unpack(path.read_bytes())
    leaves, log = rest[:-1], rest[-1]
    return list(log[:points]), leaves[:signatures_made], frame[:size] if on_disk else None


def run_desk(program, folder, texts, delay=None, **asked):
    """Starts the desk, kills it after the delay if there is one, and waits for its end."""
    seen = folder.parent / "seen"
    seen.write_bytes(bytes(SEEN.size))
    environment = {**os.environ, "SEEN": str(seen)}
    environment |= {name: f"{at},{turn}" for name, (at, turn) in asked.items()}
    pipes = {"stdin": subprocess.PIPE, "stdout": subprocess.PIPE, "stderr": subprocess.DEVNULL}
    given = b"".join(text + b"\n" for text in texts)
    with subprocess.Popen([str(program), "sign", str(folder)], env=environment, **pipes) as desk:
        if delay is not None:
            desk.stdin.write(given)
            desk.stdin.flush()
            time.sleep(delay)
            desk.send_signal(signal.SIGKILL)
            out = desk.stdout.read()
        else:
            out, _ = desk.communicate(given)
    return Run(desk.returncode, out, *seen_of(seen))


class Life:
    """A key from its first frame on: what its desks have signed, and the cabinet that takes it."""

    def __init__(self, pick, folder, p, next_leaf=0):
        self.pick, self.folder = pick, folder
        self.key = SigningKey(p, pick.randbytes(16), pick.randbytes(16), next_leaf, 0)
        root = signatures.root_of(p, self.key.seed, self.key.secret)
        self.cabinet = Verifier(p, self.key.seed, root, 0, 0)
        self.last, self.orders, self.lost, self.put_back = next_leaf - 1, 0, 0, 0
        folder.mkdir(exist_ok=True)
        self.put(right_frame(self.key))

    def put(self, frame):
        """As if it had been there when the power came back."""
        (self.folder / "key").write_bytes(frame)

    def frame(self, by):
        """The key's frame, once its desk has stored so many reserved leaves."""
        counter = {"next": self.key.next + by, "mark": 1} if by else {}
        return right_frame(self.key._replace(**counter))

    def run(self, program, status, texts, failed_at=None, **how):
        """Starts the desk once. Answers with the run, once all is as it must be. Behind the point
        with this number, where the system refused something, nothing is signed or handed out."""
        given = [f"order {self.last + 1}.{i}".encode() for i in range(texts)]
        run = run_desk(program, self.folder, given, **how)
        if failed_at is not None and set(run.points[failed_at + 1 :]) & set(ISSUING):
            raise Caught(UNSTORED, f"behind {told(run.points[failed_at])}")
        for leaf in run.leaves:
            if leaf <= self.last:
                raise Caught(TWICE, f"leaf {leaf}, after {self.last}")
            self.last = leaf
        if run.status not in status:
            raise Caught(STATUS, f"with {run.status} instead of {status}")
        self.judge_stored(run)
        self.judge_orders(run, given)
        return run

    def judge_stored(self, run):
        """The file is the frame before the last rename or the one behind it, by the leaves that
        were reserved until then; then the power comes back."""
        reserved = old = new = 0
        for at in run.points:
            reserved += at == point("reserve", AFTER)
            new = reserved if at == point("rename", BEFORE) else new
            old = new if at == point("rename", AFTER) else old
        on_disk = self.frame(0) if run.on_disk is None else run.on_disk
        visible = (self.folder / "key").read_bytes()
        if read_key(visible)[0] or read_key(on_disk)[0]:
            raise Caught(FRAME, f"{visible}, {on_disk}, of which one is no frame")
        if visible not in (self.frame(old), self.frame(new)):
            raise Caught(FRAME, f"{visible}, not of {old} or {new} leaves")
        if on_disk != visible and self.pick.random() < 0.5:
            self.put(on_disk)
            self.put_back += 1
            visible = on_disk
        _, _, key = read_key(visible)
        self.lost += key.next - self.key.next - len(run.leaves)
        self.key = key

    def judge_orders(self, run, given):
        """What was handed out as a whole; a sheet that was cut off in the middle is none."""
        p, lines = self.key.profile, run.out.splitlines(keepends=True)
        height = p.l + p.h + 5
        whole = [lines[at : at + height] for at in range(0, len(lines), height)]
        if whole and not (len(whole[-1]) == height and whole[-1][-1].endswith(b"\n")):
            whole.pop()
        for text, sheet, leaf in zip(given, whole, run.leaves):
            self.judge_order(text, b"".join(sheet), leaf)
        if len(whole) > len(run.leaves):
            raise Caught(REFUSED, "more sheets than signatures")

    def judge_order(self, text, sheet, leaf):
        p = self.key.profile
        out = bytes(signatures.signature_length(p)), bytes(200)
        outcome, _, size, signature, message = sheets.read_sheet(p, sheet, *out)
        if outcome or message[:size] != text or int.from_bytes(signature[:4], "big") != leaf:
            raise Caught(REFUSED, f"{sheet}")
        work = [0] * table_length(p.l, p.s)
        outcome, self.cabinet, made, _ = signatures.check(self.cabinet, text, signature, work)
        if (outcome, made) != (0, p.l * (p.w - 1) - p.s):
            raise Caught(REFUSED, f"by {outcome} with {made} steps")
        self.orders += 1


class Trial:
    """All runs of one desk."""

    def __init__(self, program, folder, pick, right=True):
        self.program, self.folder, self.pick = program, folder, pick
        self.lives, self.drawn = [], Counter()
        # A desk that is wrong may leave out a step, and so end where it was to be killed.
        self.right, self.killed = right, [-signal.SIGKILL] + [0] * (not right)

    def life(self, edition, h=10, next_leaf=0):
        folder = self.folder / f"keys{len(self.lives)}"
        p = Profile(*SHAPE, h, edition)
        self.lives.append(Life(self.pick, folder, p, next_leaf))
        return self.lives[-1]

    def uncut(self, edition):
        """A desk that nothing happens to takes the steps in their order."""
        life = self.life(edition)
        for orders in (3, 0, 2):
            if life.run(self.program, [0], orders).points != whole_run(orders):
                raise Caught(STEPS, "in a run that was not cut")

    def cut_at_points(self, edition):
        """A kill at each point, in the first order of a run and in later ones."""
        life = self.life(edition)
        for turn in TURNS:
            for at in POINTS:
                # the key is read once a run
                met = 1 if at < ORDER[0] else turn
                run = life.run(self.program, self.killed, 4, POWER_CUT=(at, met))
                if self.right and run.points[-1] != at:
                    raise Caught(STEPS, f"killed {told(run.points[-1])} instead of {told(at)}")

    def failing_stores(self, edition):
        """The system refuses a step of storing, or the order's handing out: the desk ends."""
        life = self.life(edition)
        for call in [*STORING, "hand out"]:
            for turn in TURNS:
                at = point(call, BEFORE)
                failed_at = len(whole_run(turn - 1)) + ORDER.index(at)
                how = {"failed_at": failed_at, "STORE_FAILS": (at, turn)}
                if life.run(self.program, [FAILED], 5, **how).points[failed_at] != at:
                    raise Caught(STEPS, f"{told(at)} did not fail")

    def spent(self, edition):
        """A desk near its end signs with the leaves left, then 12; a cut costs the last one too."""
        end = 2**6
        life = self.life(edition, 6, end - 3)
        for orders in (3, 0):
            if len(life.run(self.program, [12], 5).leaves) != orders:
                raise Caught(STEPS, "other orders before 12")
        life = self.life(edition, 6, end - 1)
        life.run(self.program, self.killed, 5, POWER_CUT=(point("sign", BEFORE), 1))
        life.run(self.program, [12], 5)

    def alone(self, edition):
        """A second desk on the same key is turned away while the first one waits for an order."""
        life, seen = self.life(edition), self.folder / "seen"
        seen.write_bytes(bytes(SEEN.size))
        command = [str(self.program), "sign", str(life.folder)]
        quiet = {"env": {**os.environ, "SEEN": str(seen)}, "stderr": subprocess.DEVNULL}
        with subprocess.Popen(command, stdin=subprocess.PIPE, **quiet) as first:
            while not seen_of(seen)[0] and first.poll() is None:
                time.sleep(0.001)
            second = subprocess.run(command, stdin=subprocess.DEVNULL, **quiet)
            first.stdin.close()
        if (first.returncode, second.returncode) != (0, FAILED):
            raise Caught(STATUS, f"of two, with {first.returncode} and {second.returncode}")

    def cut_at_times(self, h, kills):
        life, texts = self.life(EDITIONS[0], h), [b"order"] * ORDERS
        began = time.monotonic()
        run_desk(self.program, life.folder, texts)
        longest = time.monotonic() - began
        lives = {}
        for kill in range(kills):
            edition = EDITIONS[kill % len(EDITIONS)]
            if edition not in lives or lives[edition].key.next + TEXTS >= 2**h:
                lives[edition] = self.life(edition, h)
            delay = self.pick.uniform(0, longest)
            run = lives[edition].run(self.program, self.killed, TEXTS, delay=delay)
            self.drawn[told(run.points[-1]) if run.points else "at its start"] += 1

    def at_points(self):
        """What is enough to catch a desk that is wrong."""
        for edition in EDITIONS:
            self.cut_at_points(edition)
            self.failing_stores(edition)


def try_right(archive, folder, pick):
    """Fails where something is wrong, or where what is to be seen has not come up."""
    trial = Trial(build(archive, folder, "desk"), folder, pick)
    for edition in EDITIONS:
        trial.uncut(edition)
        trial.spent(edition)
    trial.alone(EDITIONS[-1])
    trial.at_points()
    for h, kills in DRAWN.items():
        trial.cut_at_times(h, kills)
    drawn = [f"{where} {count}" for where, count in sorted(trial.drawn.items())]
    say(f"killed at each point, and at drawn times: {', '.join(drawn)}")
    lives = [(life.orders, life.lost, life.put_back) for life in trial.lives]
    orders, lost, put_back = map(sum, zip(*lives))
    say(f"{orders} orders accepted, {lost} leaves lost, {put_back} times the older frame was left")
    if len(trial.drawn) < 3 or not (orders and lost and put_back):
        raise Caught(STEPS, "kills must meet several points, cost leaves and leave older frames")


def try_wrong(archive, folder, pick):
    for name, (replacements, expected) in WRONG.items():
        inside = folder / name.replace(" ", "_")
        inside.mkdir()
        trial = Trial(build(archive, inside, "desk", replacements), inside, pick, False)
        try:
            trial.at_points()
        except Caught as how:
            if not str(how).startswith(expected):
                fail(f"a desk that {name}: {how}, not {expected}")
            say(f"a desk that {name} is caught: {how}"[:200])
        else:
            fail(f"a desk that {name} is not caught")


def main():
    parser = archive_parser("Kills a desk and finds that no leaf signs twice.")
    parser.add_argument("--seed", type=int, default=SEED)
    options = parser.parse_args()
    archive = archive_of(options)
    pick = random.Random(options.seed)
    with tempfile.TemporaryDirectory() as name:
        folder = Path(name)
        try:
            try_right(archive, folder, pick)
        except Caught as how:
            fail(f"seed {options.seed}: {how}")
        try_wrong(archive, folder, pick)


if __name__ == "__main__":
    main()
