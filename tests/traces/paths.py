"""What every test begins with. Each folder with tests has a copy of this file; a test that imports it
first can import from all folders. Their modules have names of their own.
"""

import sys
from pathlib import Path

TESTS = next(folder for folder in Path(__file__).resolve().parents if folder.name == "tests")
ROOT = TESTS.parent
sys.path += [str(folder) for folder in sorted(TESTS.iterdir()) if folder.is_dir()]

# The test that is run, as it is named from the root.
NAME = f"tests/{Path(sys.argv[0]).resolve().parent.name}/{Path(sys.argv[0]).name}"


def say(line, stream=sys.stdout):
    print(f"{NAME}: {line}", file=stream, flush=True)


def fail(line):
    sys.exit(f"{NAME}: {line}")
