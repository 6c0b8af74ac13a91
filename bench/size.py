#!/usr/bin/env python3
"""Prints the size of a static library as lines for plot.py: six fields, divided by tabs.

    size.py LIBRARY

size: bytes of code by crate and module, from the symbols; what was inlined counts where it was inlined.
section: bytes of all text, of constants and of data, which has to be 0.
call: what the library calls and does not hold.
"""

import subprocess
import sys

SECTIONS = {
    "text": (".text",),
    "constants": (".rodata",),
    "data": (".data", ".bss", ".tdata", ".tbss"),
}


def lines_of(*command):
    return subprocess.run(command, check=True, capture_output=True, text=True).stdout.splitlines()


def symbols(library):
    """The members' symbols: member, name, address, class, size, section."""
    member = None
    for line in lines_of("nm", "--format=sysv", library):
        if line.startswith("Symbols from "):
            member = line
        fields = [field.strip() for field in line.split("|")]
        if len(fields) == 7:
            name, address, kind, _, size, _, section = fields
            yield member, name, address, kind, size, section


def module(name):
    """Crate and module of a symbol; an entry point has no path and stands for itself."""
    path = name.split("::")[:-1]
    return "::".join(path[:2]) or name


def code_bytes(library):
    parts, seen = {}, set()
    for member, name, address, kind, size, section in symbols(library):
        # Functions that were merged have several names for one place.
        if kind in "tTwW" and (member, section, address) not in seen:
            seen.add((member, section, address))
            parts[module(name)] = parts.get(module(name), 0) + int(size, 16)
    return sorted(parts.items(), key=lambda part: -part[1])


def section_bytes(library):
    sums = dict.fromkeys(SECTIONS, 0)
    for line in lines_of("size", "-A", "-d", library):
        fields = line.rsplit(maxsplit=2)
        for name, starts in SECTIONS.items():
            if len(fields) == 3 and fields[0].startswith(starts):
                sums[name] += int(fields[1])
    return sums


def called(library):
    held, wanted = set(), set()
    for _, name, _, kind, _, _ in symbols(library):
        (wanted if kind == "U" else held).add(name)
    return sorted(wanted - held)


def main():
    (library,) = sys.argv[1:]
    sums = section_bytes(library)
    rows = [("size", name, count) for name, count in code_bytes(library)]
    rows += [("section", name, count) for name, count in sums.items()]
    rows += [("call", name, 0) for name in called(library)]
    for group, name, count in rows:
        print(group, name, count, "-", "-", "-", sep="\t")
    if sums["data"] != 0:
        sys.exit(f"{library} has {sums['data']} bytes of data")


if __name__ == "__main__":
    main()
