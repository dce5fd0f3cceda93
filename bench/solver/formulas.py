#!/usr/bin/env python3
"""Writes formulas in DIMACS for the measure of the solver, each as FOLDER/NAME.cnf. Use: formulas.py FOLDER

Those of two sequences of instructions are made with `formulas.py` of the folder above: they have no model if the sequences leave the same in
the named registers and flags."""
import pathlib
import sys

sys.path.insert(0, str(pathlib.Path(__file__).resolve().parent.parent))
from check_lrat import pigeons, write_dimacs
from formulas import Builder, step


def lsls(d, m, n):
    return n << 6 | m << 3 | d


def lsrs(d, m, n):
    return 0x0800 | n << 6 | m << 3 | d


def asrs(d, m, n):
    return 0x1000 | n << 6 | m << 3 | d


def adds(d, n, m):
    return 0x1800 | m << 6 | n << 3 | d


def subs(d, n, m):
    return 0x1A00 | m << 6 | n << 3 | d


def movs(d, n):
    return 0x2000 | d << 8 | n


def two(name, d, m):
    names = "ands eors lsls lsrs asrs adcs sbcs rors tst rsbs cmp cmn orrs muls bics mvns".split()
    return 0x4000 | names.index(name) << 6 | m << 3 | d


# name, left side, right side, registers, flags
SIDES = [
    # seven times a number, by a product, and by a shift and a difference
    ("product", [movs(1, 7), two("muls", 0, 1)], [lsls(1, 0, 3), subs(0, 1, 0)], [0], ""),
    # three numbers summed in another order, and with the flags of the last sum
    ("sums", [adds(0, 0, 1), adds(0, 0, 2)], [adds(1, 1, 2), adds(0, 0, 1)], [0], "nz"),
    ("sums_with_carry", [adds(0, 0, 1), adds(0, 0, 2)], [adds(1, 1, 2), adds(0, 0, 1)], [0], "nzcv"),
    # windows that gcc wrote, and alternatives: a product by 2^25 - 3, halves of a signed number, one that rounds differently, and a union of bits
    ("factor", [lsls(0, 1, 23), subs(0, 0, 1), lsls(0, 0, 2), adds(0, 0, 1)], [lsls(0, 1, 25), subs(0, 0, 1), subs(0, 0, 1), subs(0, 0, 1)], [0], ""),
    ("halves", [lsrs(2, 1, 31), adds(2, 2, 1), asrs(2, 2, 1)], [asrs(2, 1, 31), subs(2, 1, 2), asrs(2, 2, 1)], [2], "nz"),
    ("halves_rounded", [lsrs(2, 1, 31), adds(2, 2, 1), asrs(2, 2, 1)], [asrs(2, 1, 1)], [2], ""),
    ("union", [two("bics", 3, 1), adds(3, 3, 1), lsrs(2, 3, 2)], [two("orrs", 3, 1), lsrs(2, 3, 2)], [2, 3], "nzc"),
    # the absolute value in two ways
    ("absolute", [asrs(1, 0, 31), adds(0, 0, 1), two("eors", 0, 1)], [asrs(1, 0, 31), two("eors", 0, 1), subs(0, 0, 1)], [0], ""),
    # a mean without overflow, and one with overflow
    ("mean", [two("eors", 2, 2), two("orrs", 2, 0), two("ands", 2, 1), two("eors", 0, 1), lsrs(0, 0, 1), adds(0, 0, 2)],
     [adds(0, 0, 1), lsrs(0, 0, 1)], [0], ""),
    # a product of any two numbers, and one of two given numbers
    ("factors", [two("muls", 0, 1)], [movs(2, 97), movs(3, 89), two("muls", 2, 3), adds(0, 2, 0), subs(0, 0, 1)], [0], ""),
]


def difference(left, right, registers, flags):
    """The formula that the two sides leave something different."""
    b = Builder()
    start = [[b.input() for _ in range(32)] for _ in range(4)], {name: b.input() for name in "nzcv"}
    ends = []
    for side in (left, right):
        r, f = start
        for half in side:
            r, f = step(b, half, r, f)
        ends.append((r, f))
    (r, f), (s, g) = ends
    found = [bit for d in registers for bit in b.each(b.xor, r[d], s[d])]
    b.or_clause(found + [b.xor(f[name], g[name]) for name in flags])
    return b.variables, b.clauses


def main():
    folder = pathlib.Path(sys.argv[1])
    write_dimacs(folder / "pigeons_9_into_8.cnf", *pigeons(8))
    for name, *sides in SIDES:
        write_dimacs(folder / f"{name}.cnf", *difference(*sides))


main()
