#!/usr/bin/env python3
"""Lists functions and structs of crates/*/src that differ only in names, types and numbers: twins, a group a line.

    tools/twins.py [COMMIT]

Names and numbers are numbered in the order in which they come, so that two items of one shape read alike; of a struct the
plain types count. Clauses, comments and attributes do not count, nor does a function whose body is empty.
"""
import re
import subprocess
import sys


def files(commit):
    if commit:
        names = subprocess.run(["git", "ls-tree", "-r", "--name-only", commit, "crates"],
                               capture_output=True, text=True, check=True).stdout.split("\n")
    else:
        names = subprocess.run(["git", "ls-files", "crates"], capture_output=True, text=True, check=True).stdout.split("\n")
    for name in names:
        if re.fullmatch(r"crates/\w+/src/.*\.rt", name):
            text = (subprocess.run(["git", "show", f"{commit}:{name}"], capture_output=True, text=True, check=True).stdout
                    if commit else open(name).read())
            yield name, text


def items(text):
    """The name, the first line's number and the text of each function with a body and each struct."""
    lines = text.split("\n")
    for at, line in enumerate(lines):
        head = re.match(r"( *)(?:pub )?(?:extern \"C\" )?(fn|struct) (\w+)", line)
        if not head:
            continue
        end = at
        close = head[1] + "}"
        while end < len(lines) and lines[end] not in (close, head[1] + "{}") and not line.endswith(";"):
            end += 1
        body = [l for l in lines[at:end + 1] if not re.match(r" *(//|#\[)", l)]
        yield head[2], head[3], at + 1, "\n".join(body)


def shape(kind, text):
    text = re.sub(r"\b(requires|ensures)\b[^{]*\{(?:[^{}]|\{[^{}]*\})*\}", "", text)
    words = {}
    keep = {"fn", "pub", "struct", "let", "mut", "if", "else", "while", "for", "in", "match", "return", "break", "loop", "as",
            "true", "false", "self", "Self", "impl", "ref", "const", "where"}
    if kind == "struct":
        keep |= {"u8", "u16", "u32", "u64", "usize", "bool"}

    def number(token):
        word = token[0]
        return word if word in keep else f"@{words.setdefault(word, len(words))}"

    return re.sub(r"\s+", "", re.sub(r"\b\w+\b", number, text))


def main():
    groups = {}
    for name, text in files(sys.argv[1] if len(sys.argv) > 1 else ""):
        for kind, item, line, body in items(text):
            if kind == "fn" and not re.search(r"\{\s*[^\s}]", re.sub(r"(requires|ensures)[^{]*\{(?:[^{}]|\{[^{}]*\})*\}", "", body)):
                continue
            groups.setdefault((kind, shape(kind, body)), []).append(f"{name}:{line} {item}")
    found = 0
    for (kind, _), members in sorted(groups.items(), key=lambda g: g[1]):
        if len(members) > 1:
            found += len(members)
            print(f"{kind}: " + ", ".join(members))
    print(f"{found} items have a twin")


main()
