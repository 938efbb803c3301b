"""What a test of the compiled library runs on: the archive that --archive names, or that of the
repository, which is then proved and written first; and the shared object that Python loads of it.
"""

import argparse
import subprocess
import sys
from pathlib import Path

from paths import ROOT

ARCHIVE = ROOT / "target" / "staticlib" / "libzarosnik.a"


def command(*words):
    made = subprocess.run(words, cwd=ROOT, capture_output=True, text=True)
    if made.returncode:
        sys.exit(f"failed: {words}\n{made.stdout}{made.stderr}")


def archive_parser(description):
    parser = argparse.ArgumentParser(description=description)
    parser.add_argument("--archive", type=Path, help="take this one, build none")
    return parser


def archive_of(options):
    if options.archive is None:
        command("tools/archive")
    return (options.archive or ARCHIVE).resolve()


def shared_object(archive, folder, *more):
    """All of the archive, with more words for the compiler, as something that Python can load."""
    path = str(Path(folder) / "libzarosnik.so")
    whole = ["-Wl,--whole-archive", str(archive), "-Wl,--no-whole-archive"]
    command("gcc", "-shared", *more, *whole, "-o", path)
    return path
