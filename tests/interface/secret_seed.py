"""Shows that in the archive's code no branch, no address and no system call depends on the secret
seed, in Leaf key, Root, Reveal and Write key, and in Sign but through the digest of the order,
which is public. In Read key branches depend on the seed's digits in the stored key, and nothing
else does.

    python3 tests/interface/secret_seed.py [--archive FILE]

Runs secret_seed.c under valgrind's memcheck with the secret seed marked as undefined. Memcheck must
report nothing, of Read key branches alone. The controls must be reported: a branch, an address and
a system call of the test's own on the secret, and Sign where the digest is not marked as public.
Where valgrind or its header is missing, the check is left out. It speaks of the compiled code that
it ran, on these inputs.
"""

import re
import shutil
import subprocess
import tempfile
from pathlib import Path

from paths import ROOT, TESTS, fail, say

from archived import archive_of, archive_parser, command

OPTIONS = "-std=c11 -D_POSIX_C_SOURCE=200809L -O1 -g -Wall -Wextra -Wpedantic -Werror".split()
REPORTED = 9

BRANCH = "Conditional jump or move depends on uninitialised value(s)"
ADDRESS = "Use of uninitialised value of size"
SYSTEM_CALL = "Syscall param write(buf) points to uninitialised byte(s)"


# What memcheck must report of each case; of those that have nothing, nothing.
CASES = dict.fromkeys(["leaf_key", "root", "one_time_sign", "sign", "write_key"])
CASES |= {"read_key": BRANCH, "sign_undisclosed": BRANCH, "branch": BRANCH}
CASES |= {"address": ADDRESS, "system_call": SYSTEM_CALL}
# Of these it must report what is named and nothing else, and in the archive alone.
ALONE = {"read_key"}


def missing():
    """What the check cannot do without and this machine has not, or None."""
    if shutil.which("valgrind") is None:
        return "valgrind"
    probe = ["gcc", "-fsyntax-only", "-include", "valgrind/memcheck.h", "-x", "c", "/dev/null"]
    absent = subprocess.run(probe, capture_output=True).returncode
    return "valgrind/memcheck.h" if absent else None


def run(program, case, folder):
    """The exit status, and memcheck's reports."""
    log = Path(folder) / f"{case}.log"
    words = ["valgrind", "--tool=memcheck", "--quiet", "--leak-check=no", f"--log-file={log}"]
    words += [f"--error-exitcode={REPORTED}", program, case]
    made = subprocess.run(words, capture_output=True, text=True)
    return made.returncode, made.stderr + log.read_text(encoding="utf-8")


def reported(reports):
    """Of each report what it says and the function that it is about."""
    return re.findall(r"== ([^ \n].*)\n==\d+==    at 0x[0-9A-F]+: (\S+)", reports)


def judge(case, report, status, reports):
    """What is wrong with a case, or None."""
    if report is None and (status or reports):
        return "memcheck must report nothing"
    if report is not None and (status != REPORTED or report not in reports):
        return f"memcheck must report: {report}"
    if case in ALONE and not all(
        said == report and ("::" in place or place.startswith("zarosnik_"))
        for said, place in reported(reports)
    ):
        return f"memcheck must report nothing else than: {report}, in the archive"
    return None


def main():
    options = archive_parser("Follows the secret seed through the archive.").parse_args()
    lacking = missing()
    if lacking:
        say(f"left out, since {lacking} is missing")
        return
    archive = archive_of(options)
    with tempfile.TemporaryDirectory() as folder:
        program, source = str(Path(folder) / "secret_seed"), TESTS / "interface" / "secret_seed.c"
        include = f"-I{ROOT / 'include'}"
        command("gcc", *OPTIONS, include, str(source), str(archive), "-o", program)
        for case, report in CASES.items():
            status, reports = run(program, case, folder)
            wrong = judge(case, report, status, reports)
            if wrong:
                fail(f"{case}: {wrong}\nexit status {status}\n{reports}")
            places = sorted({place for _, place in reported(reports)})
            say(f"{case}: " + (f"reported, in {', '.join(places)}" if report else "no report"))


if __name__ == "__main__":
    main()
