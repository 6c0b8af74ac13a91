#!/usr/bin/env python3
"""Turns the dashes in the repository's own antt names to underscores, over crates/: what port.py leaves of the older spelling.

usage: python3 tools/snake_case.py [FOLDER]        once, behind port.py, at the top of the repository (or of FOLDER)

Names of Rattle's library, operators, and the names that Rattle makes (goals and the facts of a step, in Proof.antt) keep their dashes.
"""

import os
import re
import sys

NAME = re.compile(r"[^\s(){}\[\].,;\"]+")
USE = re.compile(r"use (\S+?)\.\{([^}]*)\}")
DECLARED = re.compile(r"^\s*(?:(?:pub|abbrev|unfoldable)\s+)*([^\s(){}\[\].,;:\"]+)(?:\s*[({].*)?\s+:(?:\s|$)")
# Rattle's own names for proofs of functions and for goals
MADE = re.compile(r"(?:^returns|-spec$|-requires(?:-\d+)?$|^decreases|^invariant|-init$|-preserved$|-smaller$)")


def files(top):
    for folder, dirs, names in os.walk(os.path.join(top, "crates")):
        dirs[:] = sorted(d for d in dirs if d != "out")
        for name in sorted(names):
            if name.endswith((".antt", ".rt")):
                yield os.path.join(folder, name)


def dashed(name):
    return re.search(r"[^\W_][-][^\W_]", name) is not None


def is_own_module(path):
    return path.startswith("Rattle.") and not path.startswith("Rattle.std.")


def library_names(texts):
    """The dashed names that are imported from Rattle's library."""
    found = set()
    for text in texts.values():
        for module, names in USE.findall(text):
            if not is_own_module(module):
                found |= {n.strip().split(" as ")[0] for n in names.split(",") if dashed(n)}
    return found


def declared(texts):
    """The dashed names that specs/ and the lemma files declare or bind, and the helpers of proof files."""
    found = set()
    for path, text in texts.items():
        if path.endswith(".rt"):
            continue
        for line in text.split("\n"):
            if line.lstrip().startswith("--"):
                continue
            if os.path.basename(path) != "Proof.antt":
                found |= {part for name in NAME.findall(line) for part in name.split(".") if dashed(part)}
            else:
                m = DECLARED.match(line)
                if m and dashed(m.group(1)) and "tie." not in line and not MADE.search(m.group(1)):
                    found.add(m.group(1))
    return found


def turn_line(line, own, skip_steps):
    """The line with the repository's own names turned; in a proof file the names of steps stay."""
    def turn(m):
        name = m.group(0)
        start = line[:m.start()]
        # `c.step.field`: a step's name is Rattle's
        if skip_steps and re.search(r"(?<![\w.])(?:c|tie|w)(?:\.[^\s(){}\[\],;\"]*)?\.$", start):
            return name
        return name.replace("-", "_") if name in own else name
    return NAME.sub(turn, line)


def main(top):
    texts = {}
    for path in files(top):
        with open(path, encoding="utf-8") as f:
            texts[path] = f.read()
    library = library_names(texts)
    own = declared(texts) - library
    for path, text in texts.items():
        here = set(own)
        for name in library:
            if re.search(r"^(?:(?:pub|abbrev|unfoldable)\s+)*" + re.escape(name) + r" :", text, re.M) and path.endswith(".antt"):
                here.add(name)
        lines = text.split("\n")
        proof = os.path.basename(path) == "Proof.antt"
        new = []
        for line in lines:
            bare = line.lstrip()
            if bare.startswith(("--", "//")):
                new.append(line)
            else:
                new.append(turn_line(line, here, proof))
        turned = "\n".join(new)
        if turned != text:
            with open(path, "w", encoding="utf-8") as f:
                f.write(turned)


if __name__ == "__main__":
    main(sys.argv[1] if len(sys.argv) > 1 else ".")
