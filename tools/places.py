#!/usr/bin/env python3
"""Counts what docs/DESIGN-PASS.md counts, in crates/*/src and crates/*/proofs of the checkout that it is run in.

  tools/places.py          the counts, point by point
  tools/places.py 3        the places of point 3, one a line
"""
import glob
import re
import sys

SOURCES = {path: open(path, encoding="utf-8").read() for path in sorted(glob.glob("crates/*/src/*.rt"))}
PROOFS = {path: open(path, encoding="utf-8").read() for path in sorted(glob.glob("crates/*/proofs/**/*.antt", recursive=True))}


def code(text):
    """The text with its comments and clauses blanked, line for line."""
    text = re.sub(r"//[^\n]*", "", text)
    return re.sub(r"^ *(requires|ensures)\b[^\n]*", "", text, flags=re.M)


def matches(pattern, flags=re.M, texts=None):
    found = []
    for path, text in (texts or SOURCES).items():
        body = code(text) if path.endswith(".rt") else text
        for match in re.finditer(pattern, body, flags):
            line = body.count("\n", 0, match.start()) + 1
            found.append(f"{path}:{line}: {' '.join(match.group(0).split())[:90]}")
    return found


def signatures():
    """Each function's name and its parameters, as one line."""
    found = []
    for path, text in SOURCES.items():
        body = code(text)
        for match in re.finditer(r"\bfn (\w+)(?:<[^>]*>)?\(([^)]*)\)", body):
            line = body.count("\n", 0, match.start()) + 1
            found.append((path, line, match.group(1), " ".join(match.group(2).split())))
    return found


def with_parameters(pattern):
    return [f"{path}:{line}: {name}({args})"[:140] for path, line, name, args in signatures() if re.search(pattern, args)]


def twins():
    """Functions of one name in several places, and of one name but for a word that the names of lists differ in."""
    names = {}
    for path, line, name, args in signatures():
        names.setdefault(name, []).append(f"{path}:{line}: {name}")
    return [place for places in names.values() if len(places) > 1 for place in places]


POINTS = {
    "1a own enums": lambda: matches(r"^(?:pub(?:\(crate\))? )?enum \w+"),
    "1b refusals by number": lambda: matches(r"\bnumber: \d+"),
    "1c kinds, actions, checks and marks by number": lambda: matches(r"^(?:pub(?:\(crate\))? )?const \w*(?:KEY|KIND|MAP|LIST|SET|DELETE|INCREMENT|CHECK|MARK): u64"),
    "1d parameters and fields that are such a number": lambda: matches(r"\b(?:number|action|mark): u64"),
    "1e a flag handed on in place of a result": lambda: matches(r"\b(?:formed|counter|shows): bool"),
    "2 functions that share a name": twins,
    "3a loops on a condition": lambda: matches(r"^ *(?:'\w+: )?while (?!let)"),
    "3b of them, with a counter that goes up or down by one": lambda: matches(r"^( *)(?:'\w+: )?while (?!let)[^\n]*\n(?:(?!^\1\})[^\n]*\n)*?^ +(?:\w+ [-+]= 1|\w+ = \w+ \+ 1);\n(?:^ *\}\n)?\1\}"),
    "4 comparison, order, copying or conversion by hand": lambda: matches(r"\bfn (?:compare|same_\w+|\w+_before|flag|copy_\w+|move_\w+|clear)\b"),
    "5a a slice and a count or a place in it": lambda: with_parameters(r"\b(?:rows|succs|ops|xs|old|out): &(?:mut )?\[u64\], (?:n|m|k|i|x|at|a|t): usize"),
    "5b seven parameters or more": lambda: [s for s in with_parameters(r".") if s.count(":") > 8],
    "6a a buffer with a length or a depth beside": lambda: with_parameters(r"\b(?:rows|succs|ops|xs|old|stack|room): &(?:mut )?\[u64\], (?:n|m|k|depth): usize"),
    "6b searched by halving": lambda: matches(r"\(\w+ - \w+\) / 2"),
    "7 one of several steps, by a number": lambda: matches(r"^ *(?:\} else )?if (?:number|k|kind|action|a) == \w+"),
    "8a answers": lambda: matches(r"^(?:pub )?[\w-]+ : goal\.", texts=PROOFS),
    "8b files of answers and invariants": lambda: [p for p in PROOFS if p.endswith(("/Answers.antt", "/Invariants.antt"))],
    "8c names that are the checker's own": lambda: matches(r"c\.[\w.-]*(?:-own|-raw)\b|\.given\b", texts=PROOFS),
}

wanted = sys.argv[1] if len(sys.argv) > 1 else None
for point, places in POINTS.items():
    if wanted and not point.startswith(wanted):
        continue
    found = places()
    print(f"{len(found):5}  {point}")
    if wanted:
        print("\n".join(found))
if not wanted:
    lines = sum(text.count("\n") for text in PROOFS.values())
    print(f"{sum(t.count(chr(10)) for t in SOURCES.values()):5}  lines of code\n{lines:5}  lines of proofs")
