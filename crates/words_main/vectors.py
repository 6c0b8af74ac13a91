#!/usr/bin/env python3
"""Prints src/vectors.rt, inputs and expected outputs of every function of `words`, or stdout.

usage: vectors.py rows > src/vectors.rt      (then rt fmt)
       vectors.py lines > stdout             what the program must write

The numbers come from Python's integers and from the text of Vale's F* files, FStar.UInt and
requests 2026-02 and 2026-06, and from nothing in crates/words. A row is eight words: the function's place among
the names, the two words of x, the two of y, the small argument s, and the two words of the
expected result.
"""
import sys

M32, M64 = 2**32, 2**64
NUMBERED = """
two_select two_insert nat_to_two two_to_nat four_to_two_two byte_to_twobits iand64 iand32
ixor64 ixor32 ishl64 ishl32 ishr64 ishr32 mul_div mul_mod
cf overflow update_cf update_of add64 add32 sub64 sub32
mul_wide four_insert insert_nat32 insert_nat64 quad32_xor add_lanes equal_lanes shl_lanes
shr_lanes shuffle_lanes shift_quad two_two_to_four four_select select_word extract_nat64
popcnt64 lzcnt64 tzcnt64
signed16 signed64 add_overflows
""".split()
EDGES64 = [0, 1, 2, 2047, 2048, M32 - 1, M32, 2**63 - 1, 2**63, M64 - 2, M64 - 1]
SEED = [0x0123456789ABCDEF]


def draw(bits):
    # xorshift64*, so that the table is the same wherever it is printed
    x = SEED[0]
    x ^= x >> 12
    x = (x ^ (x << 25)) % M64
    x ^= x >> 27
    SEED[0] = x
    return (x * 2685821657736338717 % M64) >> (64 - bits)


def quad(words):
    return (words[0] + (words[1] << 32), words[2] + (words[3] << 32))


def words(q):
    n = q[0] + (q[1] << 64)
    return [n >> (32 * k) & (M32 - 1) for k in range(4)]


def replaced(items, at, new):
    return items[:at] + new + items[at + len(new):]


def pairs64():
    few = [0, 1, 2**63, M64 - 1]
    return [(a, b) for a in few for b in few] + [(draw(64), draw(64)) for _ in range(2)]


def pairs32():
    few = [0, 1, M32 - 1]
    return [(a, b) for a in few for b in few] + [(draw(32), draw(32)) for _ in range(3)]


def quads(count):
    some = [(1 + (2 << 32), 3 + (4 << 32)), (10 + (11 << 32), 12 + (13 << 32)), (M64 - 1, M64 - 1), (0, 0), (2**63, 2**31)]
    return (some + [(draw(64), draw(64)) for _ in range(count)])[:count]


def row(x, y, s, want):
    two = lambda v: list(v) if isinstance(v, tuple) else [v, 0]
    return two(x) + two(y) + [s] + two(want)


def signed(x, n):
    return x - 2**n if x >= 2**(n - 1) else x


def select(parts, k):
    return parts[k % len(parts)]


def table():
    bytes_ = [0, 1, 2, 3, 4, 27, 177, 255]
    doubles = [(1 + (2 << 32)), 0xFFFFFFFF, 0xFFFFFFFF << 32, draw(64)]
    cut = lambda d: [d % M32, d >> 32]
    join = lambda p: p[0] + (p[1] << 32)
    amounts = [0, 1, 31, 32, 63, 64, 65]
    yield "two_select", [row(d, 0, k, select(cut(d), k)) for d in doubles for k in (0, 1, 2, 255)]
    yield "two_insert", [row(d, n, k, join(replaced(cut(d), k % 2, [n]))) for d in doubles for k in (0, 1, 254, 255) for n in [M32 - 7]]
    yield "four_select", [row(q, 0, k, words(q)[k % 4]) for q in quads(2) for k in bytes_]
    yield "four_insert", [row(q, n, k, quad(replaced(words(q), k % 4, [n]))) for q in quads(2) for k in (0, 1, 2, 3, 5, 255) for n in (0, M32 - 1)]
    yield "two_two_to_four", [row(0, (a, b), 0, (a, b)) for a in doubles for b in doubles]
    yield "four_to_two_two", [row(q, 0, 0, q) for q in quads(8)]
    yield "nat_to_two", [row(n, 0, 0, n) for n in EDGES64 + [draw(64)]]
    yield "two_to_nat", [row(n, 0, 0, n) for n in EDGES64 + [draw(64)]]
    yield "byte_to_twobits", [row(b, 0, 0, quad([b >> 2 * k & 3 for k in range(4)])) for b in bytes_ + [85, 170, 198]]
    yield "select_word", [row(q, 0, k, words(q)[k & 3]) for q in quads(1) for k in bytes_]
    yield "insert_nat32", [row(q, n, k, quad(replaced(words(q), k & 3, [n]))) for q in quads(2) for k in (0, 1, 2, 3, 5, 254) for n in [M32 - 1]]
    yield "insert_nat64", [row(q, n, k, (n, q[1]) if k % 2 == 0 else (q[0], n)) for q in quads(3) for k in (0, 1, 2, 255) for n in (5, M64 - 1)]
    yield "extract_nat64", [row(q, 0, k, q[k % 2]) for q in quads(3) for k in (0, 1, 2, 255)]
    yield "iand64", [row(a, b, 0, a & b) for a, b in pairs64()]
    yield "iand32", [row(a, b, 0, a & b) for a, b in pairs32()]
    yield "ixor64", [row(a, b, 0, a ^ b) for a, b in pairs64()]
    yield "ixor32", [row(a, b, 0, a ^ b) for a, b in pairs32()]
    yield "ishl64", [row(x, 0, s, (x << s) % M64) for x in (M64 - 1, draw(64)) for s in amounts] + [row(M64 - 1, 0, s, 0) for s in (2**32, M64 - 1)]
    yield "ishl32", [row(x, 0, s, (x << s) % M32) for x in (M32 - 1, draw(32)) for s in amounts] + [row(M32 - 1, 0, M32 - 1, 0)]
    yield "ishr64", [row(x, 0, s, x >> s) for x in (M64 - 1, draw(64)) for s in amounts] + [row(M64 - 1, 0, s, 0) for s in (2**32, M64 - 1)]
    yield "ishr32", [row(x, 0, s, x >> s) for x in (M32 - 1, draw(32)) for s in amounts] + [row(M32 - 1, 0, M32 - 1, 0)]
    yield "add64", [row(a, b, c, ((a + b + c) % M64, (a + b + c) >> 64)) for a, b in pairs64() for c in (0, 1)]
    yield "add32", [row(a, b, c, ((a + b + c) % M32, (a + b + c) >> 32)) for a, b in pairs32() for c in (0, 1)]
    yield "sub64", [row(a, b, 0, ((a - b) % M64, int(a < b))) for a, b in pairs64()]
    yield "sub32", [row(a, b, 0, ((a - b) % M32, int(a < b))) for a, b in pairs32()]
    yield "mul_wide", [row(a, b, 0, (a * b % M64, a * b >> 64)) for a, b in pairs64() + [(M32 - 1, M32 - 1), (M32 + 1, M32 - 1), (M64 - M32, M32 + 1)]]
    yield "mul_div", [row(a, b, 0, a * b >> 64) for a, b in pairs64()]
    yield "mul_mod", [row(a, b, 0, a * b % M64) for a, b in pairs64()]
    flags = [0, 1, 2047, 2048, 2049, 4095, 2**63, M64 - 1 - 2048, M64 - 2, M64 - 1, draw(64)]
    yield "cf", [row(f, 0, 0, f & 1) for f in flags]
    yield "overflow", [row(f, 0, 0, f >> 11 & 1) for f in flags]
    yield "update_cf", [row(f, 0, b, f & ~1 | b) for f in flags for b in (0, 1)]
    yield "update_of", [row(f, 0, b, f & ~2048 | b << 11) for f in flags for b in (0, 1)]
    some = quads(3)
    both = [(x, y) for x in some for y in some]
    lanes = lambda f, x, y: quad([f(a, b) for a, b in zip(words(x), words(y))])
    yield "quad32_xor", [row(x, y, 0, lanes(lambda a, b: a ^ b, x, y)) for x, y in both]
    yield "add_lanes", [row(x, y, 0, lanes(lambda a, b: (a + b) % M32, x, y)) for x, y in both]
    yield "equal_lanes", [row(x, y, 0, lanes(lambda a, b: (M32 - 1) * (a == b), x, y)) for x, y in both]
    yield "shl_lanes", [row(x, 0, s, quad([(a << s) % M32 for a in words(x)])) for x in some for s in (0, 1, 31, 32, 255)]
    yield "shr_lanes", [row(x, 0, s, quad([a >> s for a in words(x)])) for x in some for s in (0, 1, 31, 32, 255)]
    yield "shuffle_lanes", [row(x, 0, i, quad([words(x)[i >> 2 * k & 3] for k in range(4)])) for x in some[:3] for i in (0, 27, 78, 147, 177, 216, 228, 255)]
    yield "shift_quad", [row(x, 0, 0, quad([0] + words(x)[:3])) for x in quads(6)]
    # by the binary numeral of 64 digits, the highest first
    numeral = lambda x: format(x, "064b")
    counted = EDGES64 + [2**31, 2**62, M64 // 3, M64 // 3 * 2] + [draw(64) >> k for k in (0, 17, 40)] + [draw(40) << 24]
    yield "popcnt64", [row(x, 0, 0, numeral(x).count("1")) for x in counted]
    yield "lzcnt64", [row(x, 0, 0, 64 - len(numeral(x).lstrip("0"))) for x in counted]
    yield "tzcnt64", [row(x, 0, 0, 64 - len(numeral(x).rstrip("0"))) for x in counted]
    halves = [0, 1, 2**15 - 1, 2**15, 2**15 + 1, 2**16 - 1]
    wholes = [0, 1, 2**63 - 1, 2**63, 2**63 + 1, M64 - 1, draw(63), 2**63 + draw(63)]
    # whether it is below and above the least number, -1, 0, 1 and the largest
    picks = lambda n: enumerate([-(2**(n - 1)), -1, 0, 1, 2**(n - 1) - 1])
    beside = lambda x, n: [row(x, 0, i, (int(signed(x, n) < m), int(m < signed(x, n)))) for i, m in picks(n)]
    yield "signed16", [r for x in halves for r in beside(x, 16)]
    yield "signed64", [r for x in wholes for r in beside(x, 64)]
    # each sign with each, far from the edges, just within them and just beyond, with the carry and without
    near = [0, 1, 2**62, 2**63 - 2, 2**63 - 1, 2**63, 2**63 + 1, 3 * 2**62, M64 - 1]
    leaves = lambda z: int(not -(2**63) <= z <= 2**63 - 1)
    yield "add_overflows", [row(a, b, c, leaves(signed(a, 64) + signed(b, 64) + c)) for a in near for b in near for c in (0, 1)]


def main():
    tables = dict(table())
    assert sorted(tables) == sorted(NUMBERED)
    if sys.argv[1:] == ["lines"]:
        for name in NUMBERED:
            print("%-16s %d ok" % (name, len(tables[name])))
        return
    if sys.argv[1:] != ["rows"]:
        sys.exit(__doc__)
    rows = [[k] + r for k, name in enumerate(NUMBERED) for r in tables[name]]
    assert all(0 <= n < M64 for r in rows for n in r)
    print("// Inputs and expected outputs of every function of `words`, printed by vectors.py with Python's")
    print("// integers.")
    print("pub const NAMES: [&str; %d] = [%s];" % (len(NUMBERED), ", ".join('"%s"' % n for n in NUMBERED)))
    print()
    print("// The function's place in NAMES, x and y (two words each), s, and the two words of the result.")
    print("pub type Row = [u64; 8];")
    print()
    print("pub const ROWS: [Row; %d] = [" % len(rows))
    for r in rows:
        print("    [" + ", ".join(str(n) for n in r) + "],")
    print("];")


main()
