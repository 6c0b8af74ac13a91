#!/usr/bin/env python3
"""Lists the places in src/ where today's Rattle has another form, by the points of docs/DESIGN-PASS.md.

    tools/places.py [-v]     -v: each place and not the counts alone
"""
import collections
import glob
import re
import sys

VERBOSE = "-v" in sys.argv[1:]
FILES = sorted(f for f in glob.glob("crates/*/src/*.rt") if not f.endswith("vectors.rt"))
CODE = {f: re.sub(r"//[^\n]*", "", open(f).read()) for f in FILES}


def lines(pattern):
    """FILE:LINE TEXT of each match, one for a line."""
    found = []
    for f, text in CODE.items():
        for i, line in enumerate(text.split("\n"), 1):
            if not line.startswith("ghost use") and re.search(pattern, line):
                found.append(f"{f}:{i} {line.strip()}")
    return found


def functions():
    """Each function: file, name, parameters, and what stands between its parameters and its body."""
    for f, text in CODE.items():
        for m in re.finditer(r"\bfn (\w+)[^(]*\(", text):
            depth, i = 1, m.end()
            while depth:
                depth += {"(": 1, ")": -1}.get(text[i], 0)
                i += 1
            head = text[i:]
            body = re.search(r"^\{|[^λ]\s\{\n|;\n", head, re.M)
            yield f, m.group(1), text[m.end() : i - 1], head[: body.start() if body else 0]


def twins_by_name():
    """One name, or names that differ only in a width, for two functions or types."""
    names = collections.defaultdict(list)
    for f, text in CODE.items():
        for m in re.finditer(r"^(?:pub )?(?:extern \"C\" )?(?:fn|struct|enum) (\w+)", text, re.M):
            if m.group(1) != "main":
                names[re.sub(r"(?:8|16|32|64)$", "", m.group(1))].append(f"{f} {m.group(1)}")
    return [" | ".join(v) for v in names.values() if len(v) > 1]


def repeated_requires():
    """A fact that three or more functions require."""
    facts = collections.defaultdict(set)
    for f, name, _, head in functions():
        for m in re.finditer(r"requires(?: \w+)? \{ ([^{}]*) \}", head):
            facts[f.split("/")[1] + ": " + re.sub(r"\.(now|old)\b", "", m.group(1))].add(name)
    return [f"{k} ({len(v)} functions)" for k, v in facts.items() if len(v) > 2]


def repeated_parameters():
    """Functions of five parameters or more, which share three of them with two other functions of their crate."""
    sets = [(f, n, {p.strip() for p in ps.split(",") if p.strip()}) for f, n, ps, _ in functions()]
    found = []
    for f, n, ps in sets:
        crate = f.split("/")[1]
        near = [1 for g, m, qs in sets if g.split("/")[1] == crate and m != n and len(ps & qs) > 2]
        if len(ps) > 4 and len(near) > 1:
            found.append(f"{f} {n} ({len(ps)} parameters)")
    return found


POINTS = [
    ("1 enums", "enums that may have the shape of Option or Result", lambda: lines(r"^(pub )?enum ")),
    ("1 flags", "a number or a flag beside a value", lambda: lines(r"^\s+(pub )?(how|number|answer): u8,|^\s+(pub )?(whole|more|found|ok): bool,")),
    ("1 numbers", "numbers for kinds or refusals, as parameters or results", lambda: lines(r"\b(kind|number|answer|op|trouble|rule): (u8|u64)\b(?!,$)|^(pub )?fn \w*(judge|rule|trouble|append)\w*\(.*-> u8")),
    ("2 twins", "names that two have, or that differ only in a width", twins_by_name),
    ("3 loops", "loops that count or stop by hand", lambda: lines(r"\bwhile ")),
    ("4 by hand", "equality, conversion and printing by hand", lambda: lines(r"\bfn (same_\w+|is_quad|is_zero|is_rsp|wide|tell\w*|none_yet|lent_\w+|hand_back|evaluation_of|answer_of)\b")),
    ("5 facts", "facts that three functions of a crate require", repeated_requires),
    ("5 parameters", "functions whose parameters travel together", repeated_parameters),
    ("6 buffers", "a buffer and the place in it", lambda: lines(r"\b(out|buffer|bytes|buf): &mut \[u8[;\]]")),
    ("6 parallel", "parallel arrays, as parameters or fields", lambda: lines(r"\b(tags|fields|bases): (&mut |&)?\[u\d+")),
    ("7 switches", "a switch on which step to run", lambda: lines(r"\bmatch (holds|op|kind|code\[at\]|given)\b")),
]

for name, what, find in POINTS:
    places = find()
    print(f"{name:13} {len(places):4}  {what}")
    if VERBOSE:
        print("".join(f"    {p}\n" for p in places), end="")
