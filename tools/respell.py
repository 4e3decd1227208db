#!/usr/bin/env python3
"""Brings the project's own words to today's spelling, behind the kit's port.py: words in snake case, types and modules as they are.

usage: tools/respell.py [FOLDER]    at the top of the repository, once

It turns each definition, field and lemma of specs/ and proofs/ whose name begins in lower case and has a capital, wherever it is cited, and the
texts of the must-fail edits, which port.py leaves. Where a lemma would fall together with a definition, the lemma gets the name that TOGETHER has.
Functions, constants and strings of src/ keep their names.
"""

import os
import re
import sys

TOKEN = re.compile(r"(?<![\w'′₀₁₂-])[A-Za-z_][\w'′₀₁₂-]*")
DEFINES = re.compile(r"^\s*(?:(?:abbrev|unfoldable|pub|data|record|ghost) )*([A-Za-z_][\w'′-]*(?: [A-Za-z_][\w'′-]*)*) :(?= |$)", re.M)
BINDS = re.compile(r"[({]([A-Za-z_][\w'′ -]*) :(?= )")

# lemmas and fields that would fall together with a definition of the same file: by the folder they are in, the old name and the new
TOGETHER = [
    ("crates/laws/proofs", "on_list", "stands_on_list"),
    ("crates/batch/proofs", "on_list", "stands_on_list"),
    ("crates/laws/proofs", "owner_of", "owner_of-entry"),
    ("crates/demands/proofs", "owner_of", "owner_of-entry"),
    ("crates/checks/proofs", "found_rows", "rows_with-found"),
    ("crates/wellformed/proofs/Found.antt", "found_rows", "rows_with-found"),
    ("crates/insert/proofs", "place_after", "place_after-is"),
    ("crates/demands/proofs/Demand3.antt", "row_count", "counts_rows"),
]


def snake(name):
    return re.sub(r"(?<=[a-z0-9])([A-Z])", lambda m: "_" + m.group(1).lower(), name)


def is_camel(name):
    return name[0].islower() and re.search(r"[a-z0-9][A-Z]", name)


def files(top, ending):
    for folder, dirs, names in os.walk(os.path.join(top, "crates")):
        dirs[:] = sorted(d for d in dirs if d != "out")
        for name in sorted(names):
            if name.endswith(ending):
                yield os.path.join(folder, name)


def read(path):
    with open(path, encoding="utf-8") as f:
        return f.read()


def write(path, text):
    with open(path, "w", encoding="utf-8") as f:
        f.write(text)


def own_words(top):
    found = set()
    for path in files(top, ".antt"):
        text = read(path)
        for pattern in (DEFINES, BINDS):
            for m in pattern.finditer(text):
                found |= set(m.group(1).split())
    return {name for name in found if is_camel(name)}


def turned(text, words):
    return TOKEN.sub(lambda m: words.get(m.group(0), m.group(0)), text)


def turned_edit(text):
    """An edit of specs/: projections tight, operators by their holes, every camel word in snake case. Edits of src/ stand."""
    if not re.search(r"^file: specs/", text, re.M):
        return text
    lines = []
    for line in text.split("\n"):
        if line.startswith(("old: ", "new: ")):
            line = re.sub(r"\((\w+) (\.\w+)\)", r"\1\2", line)
            line = re.sub(r"\((\w+(?: \w+)+) (\.\w+)\)", r"(\1)\2", line)
            line = re.sub(r"(\w) (\.\w)", r"\1\2", line)
            line = line.replace("getD", "get_or")
            line = TOKEN.sub(lambda m: snake(m.group(0)) if is_camel(m.group(0)) else m.group(0), line)
        lines.append(line)
    return "\n".join(lines)


def main():
    top = sys.argv[1] if len(sys.argv) > 1 else "."
    for path in files(top, ".antt"):
        where = os.path.relpath(path, top)
        words = {old: new for folder, old, new in TOGETHER if where.startswith(folder)}
        if words:
            # a step of a function's code, as c.on_list, keeps its name
            text = read(path)
            steps = r"\.(%s)(?=\.ensures)" % "|".join(words)
            parts = re.split(steps, text)
            text = "".join(turned(part, words) if k % 2 == 0 else "." + part for k, part in enumerate(parts))
            write(path, text)
    words = {name: snake(name) for name in own_words(top)}
    for path in list(files(top, ".antt")) + list(files(top, ".rt")):
        text = read(path)
        new = turned(text, words)
        if new != text:
            write(path, new)
    for path in files(top, ".edit"):
        text = read(path)
        new = turned_edit(text)
        if new != text:
            write(path, new)


main()
