#!/usr/bin/env python3
"""Lists the functions of a crate whose proofs took longest, by the times of the files that `rt check` writes into the crate's out/.

    bench/dear_functions.py CRATE [COUNT]      COUNT: how many functions, 20 by default

A function's seconds are the sum, over its files, of the clock time since the file before. They are exact only if `out/` didn't exist before the check, nothing
else ran, and there was one job; with several jobs they only show which functions are expensive. `bench/dear_goals.py` has the steps of single goals: a function
without an expensive goal may still be expensive if it owns a big value and can fail at many places.
"""
import collections
import glob
import os
import re
import sys


def main():
    if len(sys.argv) not in (2, 3):
        sys.exit(__doc__)
    crate = sys.argv[1]
    folder = os.path.join(os.path.dirname(__file__), "..", "crates", crate, "out", "incremental")
    written = sorted((os.stat(it).st_mtime, os.path.basename(it)) for it in glob.glob(f"{folder}/**", recursive=True) if os.path.isfile(it))
    if not written:
        sys.exit(f"no files of {crate}: run rt check in its folder first")
    name, seconds = re.compile(rf"Rattle-{crate}-proofs\.(.*)\.[A-Z]\w*\."), collections.Counter()
    for (before, _), (time, file) in zip(written, written[1:]):
        if found := name.match(file):
            seconds[found[1]] += time - before
    for function, took in seconds.most_common(int(sys.argv[2]) if len(sys.argv) == 3 else 20):
        print(f"{took:7.1f} {function}")


if __name__ == "__main__":
    main()
