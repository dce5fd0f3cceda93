"""Measures `lrat_check` and a plain Rust checker, on proofs over 10,000 clauses and more.

Usage: python3 bench/measure_lrat.py FOLDER [REPEATS]

FOLDER is outside the repository. Each formula is a pigeonhole formula among 10,000 clauses of
three literals over 5,000 other variables; CaDiCaL refutes it, and both programs check the same
lines. Times are the least of the repeats, in milliseconds. The time of checking should grow in
proportion to the total length of the clauses that the hints name, which is printed too.
"""

import pathlib
import random
import subprocess
import sys

import lrat_files
from check_lrat import pigeons, proof, three_literals, write_dimacs
from lrat_lines import text


def least(runs):
    """The least times of reading and of checking in the reports."""
    reports = [run.split() for run in runs]
    return [min(int(report[k]) for report in reports) for k in (1, 3)]


def looked_at(clauses, proof_lines):
    """The total length of the clauses that the hints name."""
    lengths = {number: len(clause) for number, clause in enumerate(clauses, 1)}
    total = 0
    for line in proof_lines:
        if len(line) == 3:
            total += sum(lengths[hint] for hint in line[2])
            lengths[line[0]] = len(line[1])
    return total


def main():
    folder = pathlib.Path(sys.argv[1])
    folder.mkdir(parents=True, exist_ok=True)
    repeats = int(sys.argv[2]) if len(sys.argv) > 2 else 5
    plain = folder / "lrat_plain"
    source = pathlib.Path(__file__).with_name("lrat_plain") / "main.rs"
    subprocess.run(["rustc", "-O", "--edition", "2021", "-o", plain, source], check=True)
    binary = lrat_files.build(folder)
    for holes in (6, 7, 8):
        variables, clauses = pigeons(holes)
        _, others = three_literals(5000, 10000, 1)
        clauses += [[l + variables if l > 0 else l - variables for l in c] for c in others]
        formula = folder / f"measured{holes}.cnf"
        write_dimacs(formula, variables + 5000, clauses)
        clauses, proof_lines = proof(formula, folder)
        said = [text(line) for line in proof_lines]
        rows = []
        for program in (binary, plain):
            runs = [lrat_files.run(program, folder / "work", clauses, said) for _ in range(repeats)]
            rows.append(least([report for _, report in runs]))
        print(
            f"{len(clauses)} clauses, {len(said)} lines, {looked_at(clauses, proof_lines)} literals:"
            f" read {rows[0][0]} against {rows[1][0]}, checked {rows[0][1]} against {rows[1][1]},"
            f" ratio {rows[0][1] / max(rows[1][1], 1):.2f}"
        )


if __name__ == "__main__":
    main()
