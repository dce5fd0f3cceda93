#!/usr/bin/env python3
"""Trims the proofs of tables with `peep trim`, and checks the result.

Usage: python3 bench/trimmed.py TABLE ..

For each entry whose proof has lines, the trimmed lines have to refute the formula that `peep export` writes, by a second checker in Python, and to be those
of a second trimming, written from its description. Trimming again has to change nothing, and the rest of the text has to stay. PEEP names another program than
./peep.
"""

import os
import pathlib
import subprocess
import sys
import tempfile

from lrat_lines import Checker, read_dimacs

TOP = pathlib.Path(__file__).resolve().parent.parent
PEEP = os.environ.get("PEEP", TOP / "peep")


def peep(*words):
    return subprocess.run([PEEP, *map(str, words)], capture_output=True, text=True, check=True).stdout


def parted(text):
    """The lines of a table, and those of each entry's proof with their line numbers."""
    lines, proofs, at = text.split("\n"), [], 0
    while at < len(lines):
        if lines[at] == "proof":
            end = at + 1
            while lines[end][:1].isdigit():
                end += 1
            proofs.append((at + 1, end))
            at = end
        else:
            at += 1
    return lines, proofs


def line_of(text):
    """A line of LRAT: an id with literals and hints, or an id with the ids of deleted clauses."""
    words = text.split()
    if words[1] == "d":
        return int(words[0]), [int(word) for word in words[2:-1]]
    numbers = [int(word) for word in words]
    middle = numbers.index(0, 1)
    return numbers[0], numbers[1:middle], numbers[middle + 1 : -1]


def used_hints(checker, line):
    """The hints up to that whose clause became false."""
    true = {-literal for literal in line[1]}
    for count, hint in enumerate(line[2], 1):
        unset = [literal for literal in checker.live[hint] if -literal not in true]
        if not unset:
            return line[2][:count]
        true.update(unset)
    raise ValueError("no clause became false")


def trimmed(clauses, lines):
    """A proof after trimming, by the description."""
    checker, kept = Checker(clauses), []
    for line in lines:
        if len(line) == 3:
            kept.append((line[0], line[1], used_hints(checker, line)))
        checker.add(line)
        if len(line) == 3 and not line[1]:
            break
    named, left = {kept[-1][0]}, []
    for line in reversed(kept):
        if line[0] in named:
            named.update(line[2])
            left.append(line)
    return left[::-1]


def is_refuted(clauses, lines):
    """Whether each line holds and the last one is the empty clause."""
    checker = Checker(clauses)
    for line in lines:
        if checker.fault(line) is not None:
            return False
        checker.add(line)
    return not lines[-1][1]


def judge(table, work):
    """Checks a table; returns how many proofs have lines, and how many lines they have before and after."""
    peep("trim", table, work / "trimmed")
    old, old_proofs = parted(table.read_text())
    new, new_proofs = parted((work / "trimmed").read_text())
    assert len(old_proofs) == len(new_proofs), "the entries differ"
    counts = [0, 0, 0]
    for number, ((first, end), (new_first, new_end)) in enumerate(zip(old_proofs, new_proofs), 1):
        if first == end:
            assert new_first == new_end, f"{table}: entry {number} got lines"
            continue
        peep("export", table, number, work / "formula", work / "proof")
        _, clauses = read_dimacs(work / "formula")
        lines = [line_of(line) for line in new[new_first:new_end]]
        assert is_refuted(clauses, lines), f"{table}: entry {number} isn't refuted"
        assert lines == trimmed(clauses, [line_of(line) for line in old[first:end]]), f"{table}: entry {number} is trimmed otherwise"
        counts = [counts[0] + 1, counts[1] + end - first, counts[2] + new_end - new_first]
    for (first, end), (new_first, new_end) in zip(reversed(old_proofs), reversed(new_proofs)):
        del old[first:end], new[new_first:new_end]
    assert old == new, f"{table}: other lines differ"
    peep("trim", work / "trimmed", work / "again")
    assert (work / "again").read_bytes() == (work / "trimmed").read_bytes(), f"{table}: trimmed again"
    return counts


def main():
    with tempfile.TemporaryDirectory() as folder:
        for table in map(pathlib.Path, sys.argv[1:]):
            proofs, before, after = judge(table, pathlib.Path(folder))
            print(f"{table.name}: {proofs} proofs with lines, {before} lines before and {after} after")


main()
