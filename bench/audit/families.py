#!/usr/bin/env python3
"""Writes a table that the audit accepts: one entry, and FAMILIES families of it, with ranges around its number. Use: families.py FAMILIES > TABLE"""
import sys

from table import state, words

ENTRY = ["entry", "left movs r0, #24", "left adds r1, r1, r0", "right adds r1, #24", "mask r1 n z c v", "proof"]


def main():
    generator = words(42)
    lines = ["peep 3", "regs 2", "left 2", "seed 42", "budget 1", "pool 24", "scratch 0"]
    lines += [state(generator) for _ in range(64)] + ENTRY
    for number in range(int(sys.argv[1])):
        lines += [f"family 1 24 {number % 25} {24 + number // 25 % 232}", "proof"]
    print("\n".join(lines + ["end"]))


main()
