#!/usr/bin/env python3
"""Runs `peep` on each listing of a folder: learns its table, audits it, rewrites the listing, rewrites the result again, tidies both, has GNU as read all, and
traces them from each label.

Usage: python3 bench/real_runs.py FOLDER [STEPS [OPTIONS of learn..]]

A run of the rewritten or tidied listing has to have the events of the given one. They may differ in words that are addresses of code, which has moved, and in
how far STEPS (10,000) steps go. Prints what was counted, and ends with status 1 if anything else differs. PEEP names another program than ./peep.
"""

import collections
import os
import pathlib
import re
import subprocess
import sys
import tempfile

TOP = pathlib.Path(__file__).resolve().parent.parent
PEEP = os.environ.get("PEEP", TOP / "peep")
LABEL = re.compile(r"^\s*([A-Za-z_.$][\w.$]*)\s*:", re.M)
WORD = re.compile(r"\b[0-9a-f]{8}\b")
FACTS = collections.Counter()
WRONG = []


def peep(*words):
    return subprocess.run([PEEP, *map(str, words)], capture_output=True, text=True)


def told(run):
    """The numbers that a command prints, by the words before them."""
    words = run.stdout.split()
    return {words[at - 1]: int(word) for at, word in enumerate(words) if word.isdecimal() and not words[at - 1].isdecimal()}


def is_assembled(listing, work):
    run = subprocess.run(["arm-none-eabi-as", "-mcpu=cortex-m0", "-mthumb", listing, "-o", work / "object"], capture_output=True, text=True)
    return run.returncode == 0 and not run.stderr and not run.stdout


def without_code(lines, end):
    """Events without the words that may be addresses of code, which ends at `end`."""
    return [WORD.sub(lambda word: "code" if int(word[0], 16) <= end else word[0], line) for line in lines]


def compare(old, new, end):
    """How the events of two runs differ; the last line of each says how it ended."""
    if old == new:
        return "the same events"
    old, new = without_code(old, end), without_code(new, end)
    if old[:-1] == new[:-1] and old[-1].split()[2] == new[-1].split()[2]:
        return "the same but for code addresses"
    shorter = min(len(old), len(new)) - 1
    ends = {old[-1].split()[2], new[-1].split()[2]}
    if old[:shorter] == new[:shorter] and "going" in ends:
        return "the same as far as the steps go"
    return "other events"


def trace_both(given, rewritten, steps):
    end = 4 * len(given.read_text().split("\n"))
    for label in LABEL.findall(given.read_text()):
        old, new = (peep("trace", listing, label, steps) for listing in (given, rewritten))
        FACTS["labels"] += 1
        if old.returncode or new.returncode:
            is_same = old.stdout == new.stdout
            kind = "no code" if is_same else "refused in one"
        else:
            kind = compare(old.stdout.splitlines(), new.stdout.splitlines(), end)
        FACTS[kind] += 1
        if kind in ("other events", "refused in one"):
            WRONG.append(f"{given.name} from {label}: {kind}")


def tidy(given, work, steps):
    tidied, again = work / "tidied.s", work / "tidied-again.s"
    FACTS["changes"] += told(peep("tidy", given, tidied))["tidied"]
    if told(peep("tidy", tidied, again))["tidied"] or tidied.read_bytes() != again.read_bytes():
        WRONG.append(f"{given.name}: a second run tidies")
    if not is_assembled(tidied, work):
        WRONG.append(f"{given.name}: as of what was tidied")
    if tidied.read_bytes() != given.read_bytes():
        trace_both(given, tidied, steps)


def take(given, work, steps, options):
    table, new, again = (work / name for name in ("table", "new.s", "again.s"))
    entries = told(peep("learn", given, table, *options))
    FACTS["entries"] += entries["entries"]
    FACTS["open"] += entries["open"]
    if told(peep("audit", table)) != {key: entries[key] for key in ("entries", "open")}:
        WRONG.append(f"{given.name}: audit")
    FACTS["replaced"] += told(peep("rewrite", table, given, new, "-"))["replaced"]
    second = told(peep("rewrite", table, new, again, "-"))
    if second["replaced"] or new.read_bytes() != again.read_bytes():
        WRONG.append(f"{given.name}: a second run replaces")
    for listing in (given, new):
        if not is_assembled(listing, work):
            WRONG.append(f"{given.name}: as")
    trace_both(given, new, steps)
    tidy(given, work, steps)
    tidy(new, work, steps)
    FACTS["listings"] += 1


def main():
    folder, steps, options = pathlib.Path(sys.argv[1]), int((sys.argv[2:] or [10_000])[0]), sys.argv[3:]
    with tempfile.TemporaryDirectory() as work:
        for given in sorted(folder.glob("*.s")):
            take(given, pathlib.Path(work), steps, options)
    print(", ".join(f"{count:,} {what}" for what, count in FACTS.items()))
    print("\n".join(WRONG))
    sys.exit(bool(WRONG))


if __name__ == "__main__":
    main()
