#!/usr/bin/env python3
"""Writes windows that get shorter with a scratch register, as a table whose entries have no right sides: three shifts or extensions of one register that equal
an `ands` with a number of the pool, each under masks with and without flags. After them come the windows of the named tables, in order, if they are over the
pool. Use: scratch_rules.py WINDOWS [TABLE ..] > windows, for a learner with `scratch 1`"""
import itertools
import random
import re
import sys

POOL = [1, 2, 3, 4, 5, 24, 27, 28, 29, 30, 31, 224, 240, 248, 252, 254]
FULL = 0xFFFFFFFF
EXTENSIONS = {"uxtb": lambda x: x & 0xFF, "uxth": lambda x: x & 0xFFFF, "sxtb": lambda x: ((x & 0xFF) ^ 0x80) - 0x80 & FULL, "sxth": lambda x: ((x & 0xFFFF) ^ 0x8000) - 0x8000 & FULL}


def instrs():
    """Each instruction's text, and its effect on a word."""
    for amount in (number for number in POOL if number < 32):
        yield f"lsls r0, r0, #{amount}", lambda x, n=amount: x << n & FULL
        yield f"lsrs r0, r0, #{amount}", lambda x, n=amount: x >> n
        yield f"asrs r0, r0, #{amount}", lambda x, n=amount: (x - (x >> 31 << 32) >> n) & FULL
    for name, effect in EXTENSIONS.items():
        yield f"{name} r0, r0", effect


def is_mask(effects, number, words):
    """Whether the three equal an `ands` with the number."""
    first, second, third = effects
    return all(third(second(first(word))) == word & number for word in words)


def sides():
    random.seed(7)
    words = [FULL, *(random.getrandbits(32) for _ in range(8))]
    for three in itertools.product(list(instrs()), repeat=3):
        (_, first), (_, second), (_, third) = three
        number = third(second(first(FULL)))
        if number in POOL and number & number + 1 and is_mask((first, second, third), number, words):
            yield [text for text, _ in three]


def main():
    most, tables = int(sys.argv[1]), sys.argv[2:]
    print("peep 2\nregs 3\nleft 3\nseed 42\nbudget 20000\npool " + " ".join(map(str, POOL)) + "\nscratch 1")
    written = 0
    for mask in ("r0", "r0 n", "r0 z", "r0 n z", "r0 v", "r0 n v", "r0 z v", "r0 n z v"):
        for side in sides():
            if written < most:
                written += 1
                print("entry\n" + "".join(f"left {text}\n" for text in side) + f"mask {mask}\nproof")
    for name in tables:
        with open(name, encoding="ascii") as table:
            for entry in table.read().removesuffix("end\n").split("entry\n")[1:]:
                lines = [line for line in entry.split("\n") if line.startswith(("left ", "mask"))]
                if all(int(number) in POOL for number in re.findall(r"#(\d+)", entry)):
                    print("entry\n" + "\n".join(lines) + "\nproof")
    print("end")


main()
