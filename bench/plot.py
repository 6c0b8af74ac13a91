#!/usr/bin/env python3
"""Writes the cost page and its plot from the lines that `bench` and size.py print.

    plot.py LINES COST.md cost.svg

A line is: group, name, size, then three numbers or -. Of a time they are the nanoseconds of the proved evaluator, the
plain and the decoded interpreter; of a stack the first is bytes, and the size is the depth of nesting; of a search the
first two are the nanoseconds of a run and of the search, and the size is the least fuel.
"""

import sys
from typing import NamedTuple, Optional

TITLES = {
    "steps": ("Steps of a run", "ns a step"),
    "cells": ("Cells in a row", "ns a step"),
    "gaps": ("Cells of every tag, with gaps", "ns a step"),
    "depth": ("Depth of nesting", "ns a step"),
    "code": ("Bytes of code checked", "ns a byte"),
}
COLOURS = {"proved": "#1f5fa8", "plain": "#c2571a", "decoded": "#3a7d34"}
WIDTH, HEIGHT, LEFT, TOP, GAP = 300, 180, 60, 40, 80

INTRODUCTION = """\
Times of one run of `bench/run.sh`, which builds the proved static library and writes this page and the plot. Three
evaluators run in one process and take turns. They are held to the same end of every kernel and, before that, of every
stored job that is not refused:

- proved: the static library. It checks code and cells, and then runs from the bytes.
- plain (`bench/src/plain.rs`): safe Rust that reads the bytes as it goes and checks nothing beforehand. It is the
  yardstick: but for what a request adds it stays as it is, so that the ratios of two landings can be held side by side.
  Request 2026-04 added the count of steps and its limit to each step, so that ratios from before it are of another one;
  2026-06 the choice between two evaluations to Add64 and AddCarry64, with which it takes 5 to 12 hundredths longer;
  2026-07 the watch, behind each instruction and comparison (`bench/src/watch.rs`).
- decoded (`bench/src/decoded.rs`): safe Rust that first decodes the code into an array, with operands as values and
  structures as indexes, and runs from that. It checks nothing beforehand either.

A step is one instruction or comparison. All three watch over the flags that the fill word sets, count the steps that they
make and hold them to a limit, which is 2^64 - 1 here; the steps of a kernel are those that they count. Each time is the least processor time of several runs,
with the checking or decoding in it. Numbers are the machine's, and its pace may change from one row to the next where
others use it too: read along a row, the ratios.
"""

KERNELS = """\
`straight` has registers alone, `mixed` IfElse, memory, lanes and products, `deep` 13 IfElse in each other. `memory` has
64-bit cells in a row; `scattered` has cells of every tag with gaps, and no 64-bit cell where it would be in a row. Both
interpreters find a cell by bisection; the proved evaluator looks first where it would be in a row. `counts` has
registers, and a count in three of eight steps. `sums` has an Add64 or AddCarry64 in three of six, and the board's
evaluation in the second row; every other row is of the base's.
"""

SEARCHES = """\
`pokchrei_least_fuel` beside `pokchrei_run`, in turns, with 4,294,967,295 as cap and as fuel. Both make the same run; the two
interpreters keep no least fuel.
"""

SIZE = """\
Bytes of code of `libcapi.a` by crate and module, from its symbols. What was inlined counts where it was inlined, and
padding only in the sum.
"""

STACK = """\
Bytes of stack from the frame that calls the Rust wrapper to the deepest byte written, on a stack that was painted
before. One kind of structure stands inside another, with every instruction innermost; at 33 deep the code is refused.
"""


class Row(NamedTuple):
    name: str
    size: int
    proved: Optional[float]
    plain: Optional[float]
    decoded: Optional[float]


def read(path):
    groups = {}
    for line in open(path, encoding="utf-8"):
        group, name, size, *fields = line.rstrip("\n").split("\t")
        numbers = [None if field == "-" else float(field) for field in fields]
        groups.setdefault(group, []).append(Row(name, int(size), *numbers))
    return groups


def table(head, rows):
    yield f"| {' | '.join(head)} |"
    yield "|" + "---|" * len(head)
    for row in rows:
        yield f"| {' | '.join(row)} |"


OTHERS = ["plain", "decoded", "proved / plain", "proved / decoded"]


def others(row):
    """The interpreters' times, and the ratios to them."""
    numbers = row.plain, row.decoded, row.proved / row.plain, row.proved / row.decoded
    return [f"{number:.2f}" for number in numbers]


def kernel_table(rows):
    head = ["kernel", "steps", "proved, ns a step", *OTHERS]
    yield from table(head, ([row.name, f"{row.size:,}", f"{row.proved:.2f}", *others(row)] for row in rows))


def search_table(rows):
    head = ["kernel", "least fuel", "run, ns a step", "search", "search / run"]
    body = ([f"{row.size:,}", *(f"{x:.2f}" for x in (row.proved, row.plain, row.plain / row.proved))] for row in rows)
    yield from table(head, ([row.name, *cells] for row, cells in zip(rows, body)))


def growth_table(group, rows):
    title, unit = TITLES[group]
    head = [title.lower(), f"proved, {unit}", "against the first"]
    body = [[f"{row.size:,}", f"{row.proved:.2f}", f"{row.proved / rows[0].proved:.2f}"] for row in rows]
    if rows[0].plain is not None:
        head += OTHERS
        body = [cells + others(row) for cells, row in zip(body, rows)]
    yield from table(head, body)


def size_section(groups):
    sums = {row.name: row.size for row in groups["section"]}
    calls = " and ".join(f"`{row.name}`" for row in groups.get("call", [])) or "nothing"
    rows = [[f"`{row.name}`", f"{row.size:,}"] for row in groups["size"]]
    rows.append(["all text sections", f"{sums['text']:,}"])
    yield SIZE
    yield from table(["part", "bytes"], rows)
    yield ""
    yield f"Constants take {sums['constants']:,} bytes and data {sums['data']:,}. Of other libraries it calls {calls}."


def stack_section(rows):
    bytes_of = {}
    for row in rows:
        call, shape = row.name.split(", ", 1)
        bytes_of.setdefault((call, row.size), {})[shape] = int(row.proved)
    shapes = bytes_of["run", 32]
    body = [
        [f"{call}, {what}"] + [f"{bytes_of[call, depth][shape]:,}" for shape in shapes]
        for call in ("run", "job")
        for depth, what in ((32, "32 deep"), (33, "refused at 33"))
    ]
    yield STACK
    yield from table(["call", *shapes], body)
    yield ""
    for call in ("run", "job"):
        (one,) = bytes_of[call, 1].values()
        most = max(bytes_of[call, 32].values())
        level = (most - one) / 31
        yield f"The deepest {call} takes {most:,} bytes, one instruction alone {one:,}: about {level:.0f} a level."


def document(groups):
    yield "# Cost"
    yield ""
    yield INTRODUCTION
    yield "## Kernels"
    yield ""
    yield KERNELS
    yield from kernel_table(groups["kernel"])
    yield ""
    yield "## Least fuel"
    yield ""
    yield SEARCHES
    yield from search_table(groups["search"])
    yield ""
    yield "## Growth"
    yield ""
    yield "![Cost by steps, cells, depth and code bytes](cost.svg)"
    for group in TITLES:
        yield ""
        yield f"### {TITLES[group][0]}"
        yield ""
        yield from growth_table(group, groups[group])
    yield ""
    yield "## Size"
    yield ""
    yield from size_section(groups)
    yield ""
    yield "## Stack"
    yield ""
    yield from stack_section(groups["stack"])


def curve(rows, evaluator, top):
    last = max(len(rows) - 1, 1)
    heights = [HEIGHT * (1 - getattr(row, evaluator) / top) for row in rows]
    spots = [(f"{WIDTH * i / last:.1f}", f"{y:.1f}") for i, y in enumerate(heights)]
    line = " ".join(f"{x},{y}" for x, y in spots)
    colour = COLOURS[evaluator]
    yield f'<polyline points="{line}" fill="none" stroke="{colour}" stroke-width="2"/>'
    for x, y in spots:
        yield f'<circle cx="{x}" cy="{y}" r="3" fill="{colour}"/>'


def short(size):
    for unit, name in ((10**6, "M"), (1024, "Ki"), (1000, "k")):
        if size >= unit and size % unit == 0:
            return f"{size // unit}{name}"
    return str(size)


def panel(group, rows):
    title, unit = TITLES[group]
    drawn = [evaluator for evaluator in COLOURS if getattr(rows[0], evaluator) is not None]
    top = 1.15 * max(getattr(row, evaluator) for row in rows for evaluator in drawn)
    yield f'<text x="0" y="-14" font-weight="bold">{title} ({unit})</text>'
    yield f'<rect width="{WIDTH}" height="{HEIGHT}" fill="none" stroke="#999"/>'
    for part in (0, 0.5, 1):
        y = HEIGHT * (1 - part)
        yield f'<text x="-6" y="{y + 4:.0f}" text-anchor="end">{top * part:.1f}</text>'
    last = max(len(rows) - 1, 1)
    for i, row in enumerate(rows):
        x = WIDTH * i / last
        yield f'<text x="{x:.0f}" y="{HEIGHT + 16}" text-anchor="middle">{short(row.size)}</text>'
    for evaluator in drawn:
        yield from curve(rows, evaluator, top)


def drawing(groups):
    across, down = LEFT + WIDTH + GAP, TOP + HEIGHT + GAP
    wide, high = 2 * across, (len(TITLES) + 1) // 2 * down + 20
    yield f'<svg xmlns="http://www.w3.org/2000/svg" width="{wide}" height="{high}" font-family="sans-serif" font-size="11">'
    yield f'<rect width="{wide}" height="{high}" fill="white"/>'
    for i, group in enumerate(TITLES):
        x, y = LEFT + across * (i % 2), TOP + down * (i // 2)
        yield f'<g transform="translate({x},{y})">'
        yield from panel(group, groups[group])
        yield "</g>"
    for i, (evaluator, colour) in enumerate(COLOURS.items()):
        yield f'<text x="{LEFT + 80 * i}" y="{high - 10}" fill="{colour}">{evaluator}</text>'
    yield "</svg>"


def write(path, lines):
    with open(path, "w", encoding="utf-8") as out:
        out.writelines(line + "\n" for line in lines)


def main():
    lines, page, plot = sys.argv[1:]
    groups = read(lines)
    write(page, document(groups))
    write(plot, drawing(groups))


if __name__ == "__main__":
    main()
