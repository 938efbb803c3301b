"""Holds the C headers to the library and to the interface page.

    python3 tests/pages/header.py

Both headers compile as C11 and C++17 with all warnings. The first has the functions of the crate
`zarosnik`, the refusals of `refusal` and the orders that `numbers` gives a number; so have the
page's tables, with the words of zarosnik_outcome_text and each function's refusals in order, and so
has the table by which the tests call the library. What must not compile does not: one kind of 16
bytes for another, and an outcome that is not looked at.
"""

import itertools
import re
import subprocess
import tempfile
from pathlib import Path

from paths import ROOT, TESTS, fail

from operations import TABLE, numbers_told

INCLUDE, PAGE = ROOT / "include", ROOT / "docs" / "INTERFACE.md"
WARNINGS = "-Wall -Wextra -Wpedantic -Wconversion -Wshadow -Werror".split()
COMPILERS = [["gcc", "-std=c11", "-x", "c"], ["g++", "-std=c++17", "-x", "c++"]]
TYPES = {"u8": "uint8_t", "u16": "uint16_t", "u32": "uint32_t", "usize": "size_t"}
# Names that are shorter in the source, where an underscore needs quotes in every contract.
NAMES = {"bytes": "data", "seed": "public_seed", "secret": "secret_seed", "fields": "profile"}
NAMES |= {"next": "next_leaf", "highest": "highest_leaf", "written": "message_written"}
# How many bytes a function has written is `length` in the source.
LENGTHS = {"zarosnik_write_sheet": "sheet_written", "zarosnik_write_key": "frame_written"}
NO_OUTCOME = "not an outcome of this library"
# The columns of the page's tables, and what stands there for an empty list of refusals.
OUTCOME_TABLE = ["Number", "Name", "Meaning", "Met by", "What to do"]
ORDER_TABLE = ["Operation", "Rattle", "C", "Refusals in order"]
COMPARED_TABLE = ["Number", "Rattle", "C", "Meaning"]
NO_REFUSALS = "none"


def same(found, expected, found_in, expected_in):
    """Fails at the first name whose entries differ."""
    for name in sorted(found.keys() | expected.keys()):
        if found.get(name) != expected.get(name):
            told = f"{found_in}: {found.get(name)}\n  {expected_in}: {expected.get(name)}"
            fail(f"{name}\n  {told}")


def compiled(compiler, options, source):
    """A compiler's answer to a source text. gcc warns of outcomes only where it makes code."""
    command = compiler + options + ["-S", "-o", "/dev/null", f"-I{INCLUDE}", "-"]
    return subprocess.run(command, input=source, capture_output=True, text=True)


def must_compile(options, source, said=None):
    """Or, where something is said, it must not: each compiler must say this, as an error."""
    for compiler in COMPILERS:
        answer = compiled(compiler, options, source)
        if said not in answer.stderr or not answer.returncode if said else answer.returncode:
            fail(f"{compiler[0]}, which must say {said}\n{source}\n{answer.stderr}")


def header_text(name):
    """A header without comments, and with the number of elements in each bracket."""
    text = re.sub(r"/\*.*?\*/", " ", (INCLUDE / name).read_text(encoding="utf-8"), flags=re.DOTALL)
    for macro, value in re.findall(r"#define (ZAROSNIK_\w+) (\d+)u\n", text):
        text = text.replace(f"[{macro}]", f"[{value}]")
    return text


def source_text(crate):
    files = sorted((ROOT / "crates" / crate / "src").glob("**/*.rt"))
    text = "\n".join(file.read_text(encoding="utf-8") for file in files)
    return re.sub(r"//[^\n]*", " ", text)


def declared_parameter(text):
    """Its type, its name, and how many elements it has where it is an array."""
    kind, name, size = re.fullmatch(r"(.+?)(\w+)(?:\[(\d+)\])?", " ".join(text.split())).groups()
    return kind.replace(" *", "*").strip(), name, size


def declared_functions(text, end=";"):
    """The functions that give an outcome; `end` is what stands behind the parameters."""
    found = re.findall(rf"uint32_t (zarosnik_\w+)\(([^()]*)\)\s*{end}", text)
    return {name: [declared_parameter(p) for p in given.split(",")] for name, given in found}


def exported_parameter(function, name, kind):
    """What a parameter of the source is in C: a slice is a pointer and a length."""
    name = LENGTHS.get(function, name) if name == "length" else NAMES.get(name, name)
    if kind in TYPES:
        return [(TYPES[kind], name, None)]
    changes, inner = re.fullmatch(r"&(mut )?(.+)", kind).groups()
    element, _, size = inner.strip("[]").partition("; ")
    declared = ("" if changes else "const ") + TYPES[element]
    if size:
        return [(declared, name, size)]
    length = "len" if name == "data" else f"{name}_len"
    return [(f"{declared}*", name, None)] + [("size_t", length, None)] * (inner not in TYPES)


def exported_functions(text):
    exported = {}
    for name, given in re.findall(r'pub extern "C" fn (\w+)\((.*?)\) -> u32', text, re.DOTALL):
        parameters = re.findall(r"(\w+): ([^,]+?)\s*(?:,|$)", given)
        exported[name] = [part for p in parameters for part in exported_parameter(name, *p)]
    return exported


def declared_enum(text, enum):
    """The number of each name."""
    body = re.search(rf"enum {enum} \{{(.*?)\}};", text, re.DOTALL).group(1)
    return {name: int(number) for name, number in re.findall(r"ZAROSNIK_(\w+) = (\d+)", body)}


def refusals(text):
    """The name of each outcome in the header, with its number in the source. A cause may carry a
    value."""
    numbers = {"GRANTED": 0}
    for name, number in re.findall(r"Refusal::(\w+)(?:\(_\))? => (\d+)", text):
        numbers["REFUSED" + re.sub(r"([A-Z])", r"_\1", name).upper()] = int(number)
    return numbers


PRINT_TEXTS = """
#include <stdio.h>
#include "zarosnik.h"
int main(void)
{
    for (uint32_t outcome = 0; outcome < 256; outcome++)
        puts(zarosnik_outcome_text(outcome));
    puts(zarosnik_outcome_text(UINT32_MAX));
    return 0;
}
"""


def header_rows(outcomes):
    """By number, the name and the text of each outcome; no other number may have a text, up to 255
    and for the largest."""
    with tempfile.TemporaryDirectory() as folder:
        program = str(Path(folder) / "texts")
        command = ["gcc", "-std=c11", "-x", "c", *WARNINGS, f"-I{INCLUDE}", "-", "-o", program]
        subprocess.run(command, input=PRINT_TEXTS, text=True, check=True)
        printed = subprocess.run([program], capture_output=True, text=True, check=True).stdout
    *low, largest = printed.splitlines()
    said = {**dict(enumerate(low)), 2**32 - 1: largest}
    names = {number: name for name, number in outcomes.items()}
    for number, text in said.items():
        if (number in names) == (text == NO_OUTCOME):
            fail(f"zarosnik_outcome_text({number}) is {text!r}")
    return {number: (name, said[number]) for number, name in names.items()}


def header_orders():
    """The numbers behind `Refusals:` in the comment of each function. One may stand there twice."""
    text = (INCLUDE / "zarosnik.h").read_text(encoding="utf-8")
    comment = r"/\*((?:(?!\*/).)*)\*/\s*ZAROSNIK_NODISCARD\s*uint32_t (zarosnik_\w+)\("
    orders = {}
    for said, name in re.findall(comment, text, re.DOTALL):
        listed = re.search(r"Refusals: (.*?)(?:Granted:|Refused:|$)", said, re.DOTALL).group(1)
        if listed.startswith(f"{NO_REFUSALS}."):
            orders[name] = []
            continue
        parts = [re.match(r"[\s*]*([\d, ]+)", part).group(1) for part in listed.split(";")]
        numbers = map(int, re.findall(r"\d+", ",".join(parts)))
        orders[name] = [number for number, _ in itertools.groupby(numbers)]
    return orders


def cells(line):
    return [cell.strip().strip("`") for cell in line.strip().strip("|").split("|")]


def page_table(columns, entry):
    """The page's one table with these columns, each row as an entry, a name and what it has."""
    lines = PAGE.read_text(encoding="utf-8").splitlines()
    heads = [at for at, line in enumerate(lines) if cells(line) == columns]
    if len(heads) != 1:
        fail(f"the page has {len(heads)} tables with the columns {columns}")
    rows = itertools.takewhile(lambda line: line.startswith("|"), lines[heads[0] + 2 :])
    entries = [entry(cells(line)) for line in rows]
    if len(dict(entries)) != len(entries):
        fail(f"the page has one row twice: {[name for name, _ in entries]}")
    return dict(entries)


def page_row(row):
    """By number, the name and the meaning. A name may have the header's prefix."""
    return int(row[0]), (row[1].removeprefix("ZAROSNIK_"), row[2])


def page_order(row):
    """By the name in C, the refusals in order."""
    return row[2], [] if row[3] == NO_REFUSALS else [int(n) for n in row[3].split(",")]


def page_compared(row):
    """By the name in C, the number of an order of two numbers; in Rattle it has the same word."""
    name = row[2].removeprefix("ZAROSNIK_")
    return name, int(row[0]) if row[1].upper() == f"ORDERING::{name}" else f"{row[1]} in Rattle"


def check_version(text):
    """The parts make the string; header.c holds them to the number."""
    parts = re.findall(r"#define ZAROSNIK_VERSION_(?:MAJOR|MINOR|PATCH) (\d+)\n", text)
    strings = re.findall(r'#define ZAROSNIK_VERSION_STRING "(.*)"\n', text)
    if len(parts) != 3 or strings != [".".join(parts)]:
        fail(f"the version's parts are {parts}, its string is {strings}")


KINDS = ["public_seed", "secret_seed", "tree_root", "one_time_key", "randomizer"]
PROFILE = "zarosnik_gate_profile_2"
# For each call that takes kinds of 16 bytes: what stands before them, these, what stands behind.
RECOVERED = "0, number, bytes, 1, words, 1, &one_time_key, words"
TAKERS = [
    (f"zarosnik_fresh_key({PROFILE}, ", ["public_seed", "secret_seed"], ")"),
    (f"zarosnik_fresh_cabinet({PROFILE}, ", ["public_seed", "tree_root"], ")"),
    ("zarosnik_key_sign(&key, ", ["randomizer"], ", bytes, 1, words, 1, bytes, 1)"),
    (f"zarosnik_profile_one_time_recover({PROFILE}, ", ["public_seed"], f", {RECOVERED})"),
]


def taking(before, kinds, behind):
    things = [f"extern struct zarosnik_{thing} {thing};" for thing in [*KINDS, "key", "number"]]
    head = "void taking(uint8_t *bytes, uint32_t *words)"
    body = f"{{ (void)bytes; (void)words; (void)({before}{', '.join(kinds)}{behind} , 0); }}\n"
    return "\n".join(['#include "zarosnik_types.h"', *things, f"{head};", head, body])


def refuse_mistaken():
    """Where one kind of 16 bytes is wanted, each other is an error without any option."""
    for before, kinds, behind in TAKERS:
        must_compile([], taking(before, kinds, behind))
        for (at, kind), other in itertools.product(enumerate(kinds), KINDS):
            given = [*kinds[:at], other, *kinds[at + 1 :]]
            if other != kind:
                must_compile([], taking(before, given, behind), f"zarosnik_{other}")


def call_of(name, parameters, form):
    """A function with the same parameters, whose body is `form` of the call."""
    brackets = {p: f"[{size}]" if size else "" for _, p, size in parameters}
    given = ", ".join(f"{kind} {p}{brackets[p]}" for kind, p, _ in parameters)
    body = form.format(f"{name}({', '.join(brackets)})")
    return f"uint32_t call_{name}({given});\nuint32_t call_{name}({given}) {{ {body} }}\n"


def refuse_ignored(functions):
    """An outcome that is not looked at is warned of, whichever the function."""
    include = '#include "zarosnik_types.h"\n'
    looked_at = [call_of(*function, "return {};") for function in functions.items()]
    must_compile(WARNINGS, include + "".join(looked_at))
    for function in functions.items():
        source = include + call_of(*function, "{}; return 0;")
        must_compile(["-Werror=unused-result"], source, "unused-result")


def main():
    must_compile(WARNINGS, (TESTS / "pages" / "header.c").read_text(encoding="utf-8"))
    for header in INCLUDE.glob("*.h"):
        must_compile(WARNINGS, f'#include "{header.name}"\n#include "{header.name}"\n')
    flat, typed = header_text("zarosnik.h"), header_text("zarosnik_types.h")
    functions, outcomes = declared_functions(flat), declared_enum(flat, "zarosnik_outcome")
    compared = declared_enum(flat, "zarosnik_order")
    same(functions, exported_functions(source_text("zarosnik")), "header", "source")
    same(outcomes, refusals(source_text("refusal")), "header", "source")
    orders = re.findall(r"Ordering::(\w+) => (\d+)", source_text("numbers"))
    same(compared, {name.upper(): int(code) for name, code in orders}, "header", "source")
    check_version(flat)
    refuse_ignored({**functions, **declared_functions(typed, r"\{")})
    refuse_mistaken()
    same(header_rows(outcomes), page_table(OUTCOME_TABLE, page_row), "header", "page")
    same(header_orders(), page_table(ORDER_TABLE, page_order), "header", "page")
    told = {f"zarosnik_{operation}": numbers_told(operation) for operation in TABLE}
    same(header_orders(), told, "header", "tests/interface/operations.py")
    same(compared, page_table(COMPARED_TABLE, page_compared), "header", "page")
    print(f"header: {len(functions)} functions and {len(outcomes)} outcomes as in the source")


if __name__ == "__main__":
    main()
