"""Runs `lrat_check` on proofs that CaDiCaL wrote, intact and damaged, and compares its answers.

Usage: python3 bench/check_lrat.py FOLDER [FORMULA.cnf ..]

FOLDER is outside the repository: the program is built there. Without formulas, a few are made:
pigeonhole formulas, and random clauses of three literals. Each proof gets hints, and then

- each line has to be accepted, and the last has to refute the formula;
- each line is damaged in up to seven ways (a literal left out or negated, a hint left out, swapped
  with the next or replaced, a minus sign, an id that is in use), and the answer has to be that of a
  second checker, written in Python from the format's description;
- a damaged line that still holds is added, and the later answers have to be the second checker's;
  the same where a whole line is left out now and then.
"""

import pathlib
import random
import subprocess
import sys

import lrat_files
from lrat_lines import Checker, lines, read_dimacs, read_drat, text


def pigeons(holes):
    """The pigeonhole formula: one more pigeon than holes."""
    variable = lambda pigeon, hole: pigeon * holes + hole + 1
    clauses = [[variable(p, h) for h in range(holes)] for p in range(holes + 1)]
    for h in range(holes):
        for p in range(holes + 1):
            clauses += [[-variable(p, h), -variable(q, h)] for q in range(p)]
    return holes * (holes + 1), clauses


def three_literals(variables, count, seed):
    """Random clauses of three literals over different variables."""
    numbers = random.Random(seed)
    return variables, [
        [numbers.choice([1, -1]) * v for v in numbers.sample(range(1, variables + 1), 3)]
        for _ in range(count)
    ]


def write_dimacs(path, variables, clauses):
    text = "".join(" ".join(map(str, [*clause, 0])) + "\n" for clause in clauses)
    path.write_text(f"p cnf {variables} {len(clauses)}\n{text}")


def proof(formula, folder):
    """The lines of a proof of the formula, written by CaDiCaL."""
    drat = folder / "proof.drat"
    done = subprocess.run(
        ["cadical", "--plain", "--no-binary", "-q", formula, drat], capture_output=True, text=True
    )
    if "s UNSATISFIABLE" not in done.stdout:
        raise SystemExit(f"{formula}: not refuted")
    variables, clauses = read_dimacs(formula)
    return clauses, list(lines(clauses, read_drat(drat)))


def damaged(line, numbers):
    """Copies of the line that each differ in one place."""
    if len(line) == 2:
        number, ids = line
        yield number, [*ids, ids[0]]
        yield number, [*ids, 4294967295]
        return
    number, literals, hints = line
    if literals:
        k = numbers.randrange(len(literals))
        yield number, literals[:k] + literals[k + 1 :], hints
        yield number, literals[:k] + [-literals[k]] + literals[k + 1 :], hints
    k = numbers.randrange(len(hints))
    yield number, literals, hints[:k] + hints[k + 1 :]
    yield number, literals, hints[:k] + [numbers.randrange(1, number)] + hints[k + 1 :]
    yield number, literals, hints[:k] + [-hints[k]] + hints[k + 1 :]
    if len(hints) > 1:
        k = numbers.randrange(len(hints) - 1)
        yield number, literals, hints[:k] + [hints[k + 1], hints[k]] + hints[k + 2 :]
    yield numbers.randrange(1, number), literals, hints


def try_line(checker, line, stream, wanted):
    """Adds the line and its expected answer to the stream, and the line to the checker if it holds."""
    fault = checker.fault(line)
    stream.append(text(line))
    wanted.append(fault or "ok")
    if fault is None:
        checker.add(line)
    return fault


def streams(clauses, proof_lines, numbers):
    """Streams of lines with their expected answers: each line intact, each damaged, and some left out."""
    stream, wanted = [], []
    checker = Checker(clauses)
    for line in proof_lines:
        try_line(checker, line, stream, wanted)
    yield "whole", stream, wanted

    stream, wanted, held = [], [], 0
    checker = Checker(clauses)
    for line in proof_lines:
        for other in damaged(line, numbers):
            if checker.fault(other) is None:
                held += 1
            else:
                try_line(checker, other, stream, wanted)
        try_line(checker, line, stream, wanted)
    yield f"damaged ({held} more still hold)", stream, wanted

    stream, wanted = [], []
    checker = Checker(clauses)
    for line in proof_lines:
        others = [other for other in damaged(line, numbers) if checker.fault(other) is None]
        try_line(checker, numbers.choice(others) if others else line, stream, wanted)
    yield "damaged where they hold", stream, wanted

    stream, wanted = [], []
    checker = Checker(clauses)
    for line in proof_lines:
        if numbers.randrange(50):
            try_line(checker, line, stream, wanted)
    yield "lines left out", stream, wanted


def main():
    folder = pathlib.Path(sys.argv[1])
    folder.mkdir(parents=True, exist_ok=True)
    formulas = [pathlib.Path(name) for name in sys.argv[2:]]
    if not formulas:
        for name, (variables, clauses) in {
            "pigeons6": pigeons(6),
            "pigeons7": pigeons(7),
            "random120": three_literals(120, 600, 1),
            "random150": three_literals(150, 750, 2),
        }.items():
            formulas.append(folder / f"{name}.cnf")
            write_dimacs(formulas[-1], variables, clauses)
    binary = lrat_files.build(folder)
    numbers = random.Random(9)
    said, taken, failed = 0, 0, 0
    for formula in formulas:
        clauses, proof_lines = proof(formula, folder)
        for name, stream, wanted in streams(clauses, proof_lines, numbers):
            answers, report = lrat_files.run(binary, folder / "work", clauses, stream)
            accepted = sum(answer == "ok" for answer in answers)
            wrong = sum(a != b for a, b in zip(answers, wanted)) + abs(len(answers) - len(wanted))
            said, taken, failed = said + len(stream), taken + accepted, failed + wrong
            print(
                f"{formula.stem}, {name}: {len(stream)} lines, {accepted} accepted,"
                f" {len(answers) - accepted} refused, {wrong} answered otherwise than due; {report}"
            )
    print(f"{said} lines, {taken} accepted, {said - taken} refused, {failed} otherwise than due")
    if failed:
        raise SystemExit(1)


if __name__ == "__main__":
    main()
