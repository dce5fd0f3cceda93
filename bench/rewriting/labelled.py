#!/usr/bin/env python3
"""Writes a table with costs, FOLDER/table, and listings of N windows that it replaces by as many instructions, FOLDER/whole.s, and of half as many,
FOLDER/half.s. Each window has a label on its line, which gets a line of its own: the rewritten listing has 2 N + 1 lines, so with N above 131,071 some
windows stay. Use: labelled.py N FOLDER"""
import pathlib
import sys

sys.path.insert(0, str(pathlib.Path(__file__).resolve().parent.parent))
from growth import DOUBLE, labelled, table_by_costs


def main():
    count, folder = int(sys.argv[1]), pathlib.Path(sys.argv[2])
    (folder / "table").write_text(table_by_costs(DOUBLE))
    for name, windows in ("whole.s", count), ("half.s", count // 2):
        (folder / name).write_text("".join(f"{line}\n" for line in labelled(windows)))


if __name__ == "__main__":
    main()
