#!/usr/bin/env python3
"""Has an independent solver prove rules of every kind of instruction, and gives its proofs to `peep audit`.

Usage: python3 bench/exported.py FOLDER [TABLE]

FOLDER is outside the repository. TABLE gets the text of one table of all rules, with their proofs. For each rule `peep export` writes the formula that its
sides differ, and CaDiCaL has to refute it. Its proof, with hints added, goes into the table's text, which `peep audit` has to accept. With one literal or hint
damaged, the audit has to refuse exactly what a second checker refuses, at the same line.
"""

import os
import pathlib
import random
import subprocess
import sys

from check_lrat import Checker, damaged, proof
from lrat_lines import text

TOP = pathlib.Path(__file__).resolve().parent.parent
PEEP = pathlib.Path(os.environ.get("PEEP", TOP / "peep"))

# left side, right side, mask
RULES = [
    ("lsls r0, r0, #24; lsrs r0, r0, #24", "uxtb r0, r0", "r0"),
    ("mov r0, r1; mov r1, r0", "mov r0, r1", "r0 r1 n z c v"),
    ("mvns r0, r0; adds r0, #1", "rsbs r0, r0, #0", "r0 n z c v"),
    ("eors r0, r1; eors r0, r1", "", "r0 r1"),
    ("adds r0, r0, r1; subs r0, r0, r1", "", "r0 r1"),
    ("subs r0, r0, r1; adds r0, r0, r1", "", "r0 r1"),
    ("ands r0, r0", "", "r0"),
    ("orrs r0, r1; orrs r0, r1", "orrs r0, r1", "r0 n z"),
    ("bics r0, r1; bics r0, r1", "bics r0, r1", "r0 n z"),
    ("rev r0, r0; rev r0, r0", "", "r0"),
    ("rev16 r0, r0; rev16 r0, r0", "", "r0"),
    ("revsh r0, r0; revsh r0, r0", "sxth r0, r0", "r0"),
    ("uxth r0, r0; uxtb r0, r0", "uxtb r0, r0", "r0"),
    ("sxtb r0, r0; sxth r0, r0", "sxtb r0, r0", "r0"),
    ("tst r0, r1; tst r0, r1", "tst r0, r1", "n z c v"),
    ("cmp r0, r1; cmp r0, r1", "cmp r0, r1", "n z c v"),
    ("cmn r0, r1; cmp r0, #1", "cmp r0, #1", "n z c v"),
    ("movs r0, #1; movs r0, #255", "movs r0, #255", "r0 n z c v"),
    ("asrs r0, r0, #1; asrs r0, r0, #2", "asrs r0, r0, #3", "r0 n z c"),
    ("muls r0, r1, r0; movs r0, r0", "muls r0, r1, r0", "r0 n z"),
    ("rsbs r0, r0, #0; rsbs r0, r0, #0", "", "r0"),
    ("adcs r0, r1; movs r0, r0", "adcs r0, r1", "r0 n z"),
    ("sbcs r0, r1; movs r0, r0", "sbcs r0, r1", "r0 n z"),
    ("lsls r0, r1; movs r0, r0", "lsls r0, r1", "r0 z c"),
    ("rors r0, r1; movs r0, r0", "rors r0, r1", "r0 n c"),
]


def entry(rule, lines):
    """The text of an entry with these proof lines."""
    left, right, mask = rule
    sides = [f"left {instr}" for instr in left.split("; ")]
    sides += [f"right {instr}" for instr in right.split("; ") if instr]
    return ["entry", *sides, f"mask {mask}", "proof", *lines]


def table(entries):
    """The text of a table of entries, with the states of the shipped table."""
    states = [
        line
        for line in (TOP / "examples" / "moves.peep").read_text().splitlines()
        if line.startswith("state ")
    ]
    head = ["peep 1", "regs 2", "left 2", "seed 42", "budget 1", "pool 1 2 3 24 255"]
    return "\n".join([*head, *states, *sum(entries, []), "end"]) + "\n"


def first_refused(clauses, lines):
    """What the audit has to say of the lines: nothing; the kind and number of the first refused line; or that no clause is empty."""
    checker = Checker(clauses)
    refuted = [] in clauses
    for number, line in enumerate(lines, 1):
        if checker.fault(line) is not None:
            return f"2 {number}"
        checker.add(line)
        refuted = refuted or (len(line) == 3 and not line[1])
    return None if refuted else "3"


def peep(*words):
    done = subprocess.run([PEEP, *map(str, words)], capture_output=True, text=True)
    return done.returncode, done.stdout


def main():
    folder = pathlib.Path(sys.argv[1])
    folder.mkdir(parents=True, exist_ok=True)
    draw = random.Random(1)
    failed, proved, refused, same = 0, 0, 0, 0
    entries = []
    for rule in RULES:
        held, cnf, lrat = folder / "table", folder / "formula.cnf", folder / "proof.lrat"
        held.write_text(table([entry(rule, [])]))
        status, printed = peep("export", held, 1, cnf, lrat)
        if status != 0:
            print(f"{rule}: {printed}")
            failed += 1
            continue
        clauses, lines = proof(cnf, folder)
        whole = entry(rule, [text(line) for line in lines])
        entries.append(whole)
        held.write_text(table([whole]))
        status, printed = peep("audit", held)
        if (status, printed) != (0, "entries 1 open 0\n"):
            print(f"{rule}: {printed}")
            failed += 1
        proved += 1
        for _ in range(4):
            if not lines:
                break
            place = draw.randrange(len(lines))
            for changed in damaged(lines[place], draw):
                whole = [*lines[:place], changed, *lines[place + 1 :]]
                due = first_refused(clauses, whole)
                held.write_text(table([entry(rule, [text(line) for line in whole])]))
                status, printed = peep("audit", held)
                want = "entries 1 open 0\n" if due is None else f"refused entry 1 {due}\n"
                same += printed == want
                refused += due is not None
                if printed != want:
                    print(f"{rule}, line {place + 1} as {changed}: {printed.strip()}, not {want.strip()}")
                    failed += 1
    print(f"{len(RULES)} rules: {proved} refuted and accepted; {same} damaged proofs judged alike, {refused} of them refused")
    if len(sys.argv) > 2:
        pathlib.Path(sys.argv[2]).write_text(table(entries))
    sys.exit(failed != 0)


main()
