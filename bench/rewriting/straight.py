#!/usr/bin/env python3
"""Writes LINES lines of straight code that mention no names, by repeating those of a listing. Use: straight.py LINES < listing > straight"""
import re
import sys
from itertools import cycle, islice

# A line with one instruction that isn't a branch, a call, a return, a literal load or an address.
STRAIGHT = re.compile(r"\s+(?!b(?!ic)|push\b|pop\b|bkpt\b|svc\b|adr\b|ldr\s+\w+,\s*[^\[])[a-z0-9]+(\s+[^@:.=]*)?(@.*)?$", re.IGNORECASE)


def main():
    lines = [line for line in sys.stdin if STRAIGHT.match(line)]
    sys.stdout.writelines(islice(cycle(lines), int(sys.argv[1])))


main()
