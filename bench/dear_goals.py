#!/usr/bin/env python3
"""Lists the goals of a crate's proofs that took the prover the most steps, from the records that `rt check` keeps in the crate's out/.

    bench/dear_goals.py CRATE [COUNT]      COUNT: how many goals, 25 by default

A line has the steps in thousands (a million take about a second), the goal, and its function or file of lemmas. Records of a proof that has changed since may
still be there: check the crate from nothing for exact counts.
"""
import glob
import os
import re
import sys

GOAL = re.compile(r'"name":"([^"]{1,120})","notes".{0,4000}?"steps":\[(\d+)', re.S)


def goals_of(record):
    with open(record, encoding="latin-1") as it:
        text = it.read()
    place = os.path.basename(record).removesuffix(".decls.oantt").partition("-proofs.")[2]
    return [(int(steps), name, place) for name, steps in GOAL.findall(text)]


def main():
    if len(sys.argv) not in (2, 3):
        sys.exit(__doc__)
    folder = os.path.join(os.path.dirname(__file__), "..", "crates", sys.argv[1], "out", "incremental")
    records = glob.glob(f"{folder}/*/records/Rattle-{sys.argv[1]}-*.decls.oantt")
    if not records:
        sys.exit(f"no records of {sys.argv[1]}: run rt check in its folder first")
    goals = sorted((goal for record in records for goal in goals_of(record)), reverse=True)
    for steps, name, place in goals[: int(sys.argv[2]) if len(sys.argv) == 3 else 25]:
        print(f"{steps // 1000:6} {name} in {place}")


if __name__ == "__main__":
    main()
