#!/usr/bin/env python3
"""Writes a listing of a shape for which the time of reading must be linear in N. Use: bench/shapes.py SHAPE N > listing.s

Without arguments: the shapes, each with an N that may be doubled within 65,536 lines of at most 1,024 bytes."""
import sys


def literals(n):
    """N loads from one run of N words."""
    return ["ldr r0, run+1020"] * n + ["run:"] + [f".word {i}" for i in range(n)]


def labels(n):
    """N labels, and a call of each."""
    return [f"label{i}: bl label{n - 1 - i}" for i in range(n)]


def sets(n):
    """N names whose addresses are set."""
    return [f".set name{i}, {2 * i}" for i in range(n)]


def names(n):
    """N labels with names of 1,000 bytes that differ at the end, and a call of each."""
    long = [f"{'n' * 992}{i:08}" for i in range(n)]
    return [line for i in range(n) for line in (f"{long[i]}:", f"bl {long[n - 1 - i]}")]


def functions(n):
    """N names that are marked as functions, and a word for each."""
    return [line for i in range(n) for line in (f".type f{i}, %function", f"f{i}: nop", f".word f{n - 1 - i}")]


def empty(n):
    """N lines that are empty or have only a comment."""
    return ["", "@ nothing"] * (n // 2)


def behind(n):
    """A load whose word comes after N such lines."""
    return ["ldr r0, word", ".align 2", "word:"] + empty(n) + [".word 1"]


def many_behind(n):
    """N loads of one word, which comes after N such lines."""
    return ["ldr r0, word"] * n + [".align 2", "word:"] + empty(n) + [".word 1"]


SHAPES = {
    literals: 15_000,
    labels: 30_000,
    sets: 32_768,
    names: 8_000,
    functions: 10_000,
    behind: 32_500,
    many_behind: 16_000,
}


def main():
    words = sys.argv[1:]
    if not words:
        for shape, count in SHAPES.items():
            print(shape.__name__, count)
        return
    shape = {shape.__name__: shape for shape in SHAPES}[words[0]]
    sys.stdout.writelines(line + "\n" for line in shape(int(words[1])))


main()
