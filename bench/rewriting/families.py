#!/usr/bin/env python3
"""Generalises entries of a table to COUNT families with `peep generalise`: first to all bytes, then to ranges around their numbers. PEEP names the program.
Use: families.py COUNT TABLE OUT"""
import os
import pathlib
import shutil
import sys

sys.path.insert(0, str(pathlib.Path(__file__).resolve().parent.parent))
from families import entries_of, holes, peep


def main():
    count, out = int(sys.argv[1]), pathlib.Path(sys.argv[3])
    shutil.copy(sys.argv[2], out)
    text = out.read_text()
    entries, pool = entries_of(text), [int(word) for word in next(line for line in text.split("\n") if line.startswith("pool")).split()[1:]]
    candidates = [(at, number) for at, entry in enumerate(entries, 1) if len(entry["right"]) < len(entry["left"]) for number in holes(entry, pool)]
    made, whole = 0, []
    for at, number in candidates:
        if made < count and peep("generalise", out, at, number, 0, 255, out)[0] == 0:
            made += 1
            whole.append((at, number))
    turn = 0
    while whole and made < count:
        turn += 1
        for at, number in whole:
            if made < count:
                low, high = (number, 255) if turn == 1 else (0, number) if turn == 2 else (number * turn // (turn + 1), 255 - turn)
                made += peep("generalise", out, at, number, min(low, number), max(high, number), out)[0] == 0
    print(f"entries {len(entries)} families {made}, {len(whole)} of all bytes")


if __name__ == "__main__":
    main()
