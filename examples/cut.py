#!/usr/bin/env python3
"""Cuts a compiler's listing to its code, as the driver does, and prints how many lines of each other section it removed.

Use: cut.py IN.s CODE.s [REST.s]

CODE.s gets the lines of the sections .text and .text.NAME and those before any section, REST.s all others. To an assembler `cat CODE.s REST.s` is the whole
file again: labels of the rest are external names to the code, and labels of the code are kept in place."""
import sys
from pathlib import Path

sys.path.insert(0, str(Path(__file__).resolve().parents[1] / "driver"))

from peep_cc.listing import cut  # noqa: E402


def main(given, code_name, rest_name=None):
    code, rest, counts = cut(Path(given).read_text())
    Path(code_name).write_text("".join(code))
    if rest_name:
        Path(rest_name).write_text("".join(rest))
    for section, count in counts.items():
        print(f"{section} {count}")


if len(sys.argv) not in (3, 4):
    sys.exit(__doc__)
main(*sys.argv[1:])
