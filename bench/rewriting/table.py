#!/usr/bin/env python3
"""Cuts a table to ENTRIES entries: those that shorten their left side, and the first of the others. Use: table.py ENTRIES < table > cut"""
import sys


def is_shortened(entry):
    """Whether a left side is longer than its right side."""
    words = [line.split(" ", 1)[0] for line in entry]
    return words.count("left") > words.count("right")


def main():
    most = int(sys.argv[1])
    head, *entries = sys.stdin.read().removesuffix("end\n").split("entry\n")
    entries = [entry.split("\n") for entry in entries]
    room = most - sum(map(is_shortened, entries))
    sys.stdout.write(head)
    for entry in entries:
        if is_shortened(entry) or room > 0:
            room -= not is_shortened(entry)
            sys.stdout.write("entry\n" + "\n".join(entry))
    print("end")


main()
