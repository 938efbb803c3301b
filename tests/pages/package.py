"""Installs the library by tools/package, builds the examples against it with nothing but what
pkg-config says, as C11 and as C++17, and runs them.

    python3 tests/pages/package.py [--archive FILE]

The installed folder is moved before it is used, and neither the repository nor its headers are on
the compiler's path. Needs pkg-config.
"""

import os
import re
import shlex
import subprocess
import tempfile
from pathlib import Path

from paths import ROOT, fail

from archived import archive_of, archive_parser
from header import WARNINGS

COMPILERS = [["gcc", "-std=c11"], ["g++", "-std=c++17"]]
EXAMPLES = ["desk.c", "order.c", "order.sheet", "sheet.c", "store.c"]
INSTALLED = ["lib/libzarosnik.a", "lib/pkgconfig/zarosnik.pc", "share/doc/zarosnik/INTERFACE.md"]
INSTALLED += ["include/zarosnik.h", "include/zarosnik_types.h", "share/doc/zarosnik/SECURITY.md"]
INSTALLED += ["share/doc/zarosnik/vectors"]
INSTALLED += [f"share/doc/zarosnik/examples/{name}" for name in EXAMPLES]


def output(*command, folder, **variables):
    environment = {**os.environ, **variables}
    done = subprocess.run(command, cwd=folder, env=environment, capture_output=True, text=True)
    if done.returncode:
        fail(f"{shlex.join(command)} ended with {done.returncode}\n{done.stdout}{done.stderr}")
    return done.stdout


def check_files(prefix, archive):
    missing = [name for name in INSTALLED if not (prefix / name).exists()]
    if missing:
        fail(f"not installed: {missing}")
    copies = {name: ROOT / name for name in INSTALLED if name.startswith("include/")}
    for name, source in (copies | {"lib/libzarosnik.a": archive}).items():
        if (prefix / name).read_bytes() != source.read_bytes():
            fail(f"{name} is not {source}")


def check_links(prefix):
    """Each link of an installed page leads to something installed, or into the web."""
    for page in (prefix / "share" / "doc" / "zarosnik").glob("*.md"):
        for link in re.findall(r"\]\(([^)#]+)", page.read_text(encoding="utf-8")):
            if not link.startswith("http") and not (page.parent / link).exists():
                fail(f"{page.name} links to {link}, which is not there")


def check_version(prefix, folder, search):
    header = (prefix / "include" / "zarosnik.h").read_text(encoding="utf-8")
    version = re.search(r'ZAROSNIK_VERSION_STRING "(.*)"', header).group(1)
    said = output("pkg-config", "--modversion", "zarosnik", folder=folder, **search).strip()
    if said != version:
        fail(f"pkg-config says version {said!r}, the header {version!r}")
    return version


def build_and_run(prefix, folder, search):
    flags = output("pkg-config", "--cflags", "--libs", "zarosnik", folder=folder, **search)
    examples = prefix / "share" / "doc" / "zarosnik" / "examples"
    for compiler in COMPILERS:
        keys = folder / f"{compiler[0]}.keys"
        keys.mkdir()
        # the sheet that is read is the one that the desk writes
        sheet = [str(folder / "desk.sheet")]
        runs = {"order": [], "desk": sheet, "sheet": sheet, "store": ["make", str(keys)]}
        for name, arguments in runs.items():
            source, program = str(examples / f"{name}.c"), str(folder / name)
            built = [*compiler, *WARNINGS, source, *shlex.split(flags), "-o", program]
            output(*built, folder=folder)
            said = output(program, *arguments, folder=folder)
            if ("root: " if name == "store" else "granted") not in said:
                fail(f"{name} grants nothing")


def main():
    archive = archive_of(archive_parser("Builds against the installed library.").parse_args())
    with tempfile.TemporaryDirectory() as name:
        folder = Path(name)
        made, prefix = folder / "made", folder / "moved"
        package = str(ROOT / "tools" / "package")
        output(package, str(made), folder=folder, ZAROSNIK_ARCHIVE=str(archive))
        made.rename(prefix)
        search = {"PKG_CONFIG_PATH": str(prefix / "lib" / "pkgconfig")}
        check_files(prefix, archive)
        check_links(prefix)
        version = check_version(prefix, folder, search)
        build_and_run(prefix, folder, search)
    print(f"package: version {version}, the examples built by pkg-config's flags and run")


if __name__ == "__main__":
    main()
