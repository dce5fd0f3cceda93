#!/usr/bin/env python3
"""Writes a table that the audit accepts: each entry has three instructions, each of which writes another of three registers, and equal sides,
so that the audit has to distinguish it from all 401,323 sequences of at most two instructions. Use: table.py ENTRIES > TABLE"""
import random
import sys

POOL = [0, 1, 2, 4, 8, 16, 24, 31, 255]
MASK = (1 << 64) - 1
MULTIPLIER = 6364136223846793005


def words(seed, stream=54):
    """The generator PCG XSH RR 64/32."""
    increment = (stream << 1 | 1) & MASK
    state = ((seed + increment) * MULTIPLIER + increment) & MASK
    while True:
        old = state
        state = (state * MULTIPLIER + increment) & MASK
        mixed = ((old >> 18 ^ old) >> 27) & 0xFFFFFFFF
        turns = old >> 59
        yield (mixed >> turns | mixed << (32 - turns)) & 0xFFFFFFFF


def state(generator):
    registers = " ".join(f"{next(generator):08x}" for _ in range(4))
    return f"state {registers} {next(generator) % 16:x}"


def changed(target, others):
    """An instruction that gives a register a new value."""
    kind = random.randrange(3)
    if kind == 0:
        return f"adds r{target}, r{random.choice(others)}, r{random.choice(others)}"
    if kind == 1:
        return f"eors r{target}, r{random.choice(others)}"
    return f"lsls r{target}, r{random.choice(others)}, #{random.choice([1, 2, 4, 8, 16, 24, 31])}"


def main():
    random.seed(1)
    generator = words(42)
    lines = ["peep 1", "regs 3", "left 3", "seed 42", "budget 1", "pool " + " ".join(map(str, POOL))]
    lines += [state(generator) for _ in range(64)]
    for _ in range(int(sys.argv[1])):
        # the first instruction names r0, r1 and r2 in this order
        side = ["adds r0, r1, r2", changed(1, [0, 2]), changed(2, [0, 1])]
        lines += ["entry"] + [f"left {i}" for i in side] + [f"right {i}" for i in side] + ["mask r0 r1 r2 n z c v", "proof"]
    print("\n".join(lines + ["end"]))


if __name__ == "__main__":
    main()
