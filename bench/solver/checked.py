#!/usr/bin/env python3
"""Checks a solver's output for a formula: each clause has a literal of the model; or each line of the log is accepted by `lrat_check` and by a second
checker, no added clause contains an earlier one, and only the last line of a refutation adds the empty clause.

Use: checked.py FOLDER FORMULA PRINTED, where the program that runs `lrat_check` is built in FOLDER, outside the repository."""
import pathlib
import sys

sys.path.insert(0, str(pathlib.Path(__file__).resolve().parent.parent))
import lrat_files
from lrat_lines import Checker, read_dimacs


def line_of(text):
    """A line of the log: its id, its literals and its hints."""
    number, *rest = map(int, text.split())
    end = rest.index(0)
    return number, rest[:end], rest[end + 1 : -1]


def check_log(clauses, lines, is_refutation):
    checker = Checker(clauses)
    by_literal = {}
    lengths = []
    for clause in clauses:
        for literal in set(clause):
            by_literal.setdefault(literal, []).append(len(lengths))
        lengths.append(len(set(clause)))
    for place, line in enumerate(lines, 1):
        number, literals, hints = line
        assert checker.fault(line) is None, line
        assert number == len(clauses) + place, line
        assert len(set(hints)) == len(hints), line
        assert (not literals) == (is_refutation and place == len(lines)), line
        found = {}
        for literal in literals:
            for k in by_literal.get(literal, []):
                found[k] = found.get(k, 0) + 1
                assert found[k] < lengths[k], f"{line} contains clause {k + 1}"
        for literal in literals:
            by_literal.setdefault(literal, []).append(len(lengths))
        lengths.append(len(literals))
        checker.add(line)


def check_proved(folder, clauses, lines, is_refutation):
    binary = folder / "crates" / "lrat_files" / "out" / "lrat_files"
    if not binary.exists():
        lrat_files.build(folder)
    answers, report = lrat_files.run(binary, folder / "lines", clauses, lines)
    assert answers == ["ok"] * len(lines), "a line is refused"
    assert report.endswith(f"refuted {str(is_refutation).lower()}"), report


def main():
    folder = pathlib.Path(sys.argv[1])
    variables, clauses = read_dimacs(sys.argv[2])
    verdict, *lines = pathlib.Path(sys.argv[3]).read_text().splitlines()
    if verdict == "sat":
        values = set(map(int, lines))
        assert sorted(map(abs, values)) == list(range(1, variables + 1))
        assert all(any(literal in values for literal in clause) for clause in clauses)
    else:
        check_log(clauses, [line_of(line) for line in lines], verdict == "unsat")
        check_proved(folder, clauses, lines, verdict == "unsat")


main()
