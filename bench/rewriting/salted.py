#!/usr/bin/env python3
"""Adds WINDOWS windows that may be replaced to a listing: equally many after each function's label, where no branch or literal comes nearer to its limit and no
flag is live. With a table they are the left sides of its entries whose right side names one more register or, if it has families, those of the families
with values of their ranges. Use: salted.py WINDOWS [TABLE] < listing > salted"""
import re
import sys

TYPE = re.compile(r"\s*\.type\s+([^\s,]+)\s*,\s*%function")


def window(number):
    """A window in one of r0 to r7, of one of three kinds."""
    d = f"r{number % 8}"
    return [
        [f"lsls {d}, {d}, #24", f"lsrs {d}, {d}, #24"],
        [f"mvns {d}, {d}", f"adds {d}, #1"],
        [f"mov {d}, {d}"],
    ][number % 3]


def sides(entry, word):
    return [line.removeprefix(word) for line in entry.split("\n") if line.startswith(word)]


def last_register(texts):
    return max((int(name) for text in texts for name in re.findall(r"\br(\d)\b", text)), default=-1)


def raised(entries, family):
    """The left side of a family, as a function from a number to its texts with a value of the range."""
    entry, held, low, high = map(int, family.split())
    left = sides(entries[entry - 1], "left ")
    hole = re.compile(rf"^((?:movs|cmp|adds|subs) r\d, #){held}$")
    return lambda number: [hole.sub(rf"\g<1>{low + number // 8 % (high - low + 1)}", text) for text in left]


def windows_of(table):
    """The left sides of a table's families, or else those whose right sides name one more register: a function from a number to one of them over r0 to r7."""
    with open(table, encoding="ascii") as file:
        text = file.read()
    entries, families = text.split("entry\n")[1:], [line.removeprefix("family ") for line in text.split("\n") if line.startswith("family ")]
    scratch = [sides(entry, "left ") for entry in entries if last_register(sides(entry, "right ")) > last_register(sides(entry, "left "))]
    lefts = [raised(entries, family) for family in families] or [lambda _, left=left: left for left in scratch]
    return lambda number: [re.sub(r"\br(\d)\b", lambda name: f"r{(int(name[1]) + number) % 8}", text) for text in lefts[number % len(lefts)](number)]


def main():
    windows = int(sys.argv[1])
    window_of = windows_of(sys.argv[2]) if len(sys.argv) > 2 else window
    sys.stdin.reconfigure(encoding="latin-1")
    sys.stdout.reconfigure(encoding="latin-1")
    lines = sys.stdin.readlines()
    functions = {match.group(1) + ":\n" for match in map(TYPE.match, lines) if match}
    count = sum(line in functions for line in lines)
    passed, written = 0, 0
    for line in lines:
        sys.stdout.write(line)
        if line in functions:
            passed += 1
            while written < windows * passed // count:
                sys.stdout.writelines(f"\t{text}\n" for text in window_of(written))
                written += 1


main()
