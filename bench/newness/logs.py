#!/usr/bin/env python3
"""Writes to standard output the input of the measure of newness. Use: logs.py LINES WIDTH | logs.py pigeons HOLES

The first writes an unsatisfiable formula and, after the line `spent`, a log of LINES clauses over it: random clauses of WIDTH literals over as many variables
as there are lines, each accepted by the formula's two clauses. The second writes the pigeonhole formula: one more pigeon than holes."""
import pathlib
import random
import sys

sys.path.insert(0, str(pathlib.Path(__file__).resolve().parent.parent))
from check_lrat import pigeons


def log(lines, width):
    rng = random.Random(1)
    print(f"p cnf {lines + 1} 2\n1 0\n-1 0\nspent")
    for number in range(3, lines + 3):
        variables = rng.sample(range(2, lines + 2), width)
        print(number, *(rng.choice((v, -v)) for v in variables), 0, 1, 2, 0)


def main():
    if sys.argv[1] == "pigeons":
        variables, clauses = pigeons(int(sys.argv[2]))
        print(f"p cnf {variables} {len(clauses)}")
        for clause in clauses:
            print(*clause, 0)
    else:
        log(int(sys.argv[1]), int(sys.argv[2]))


main()
