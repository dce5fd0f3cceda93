#!/usr/bin/env python3
"""Runs every command at the limits of its sizes and at half of them, and prints processor time, peak memory and the growth factor, as rows of a table.

Usage: bench/limits.py FOLDER ROOM [WORD ..]

FOLDER has listings that gcc wrote; ROOM, outside the repository, gets the inputs made from them, up to 400 MB. If words are given, only cases run whose name
contains one of them. PEEP names another program than the repository's; TURNS (2) is the number of runs, of which the least time counts. Factors above 2.3 are
marked.
"""

import os
import pathlib
import subprocess
import sys

import read_tables

TOP = pathlib.Path(__file__).resolve().parent.parent
PEEP = pathlib.Path(os.environ.get("PEEP", TOP / "crates/peep/out/peep"))
LINES, BYTES, FAMILIES = 262_144, 67_108_864, 2_900_000
MOST = 2.3
TURNS = int(os.environ.get("TURNS", "2"))
STATES = "".join(read_tables.state_line(state) + "\n" for state in read_tables.seeded(42))
HEAD = "peep {}\nregs 2\nleft 2\nseed 42\nbudget {}\npool 24 255\n"
SUM = "entry\nleft movs r0, #24\nleft adds r1, r1, r0\nright adds r1, #24\nmask r1 n z c v\nproof\n"


# ---- inputs ----


class Inputs:
    """Texts of given sizes, each made once, by name."""

    def __init__(self, folder, room):
        self.folder, self.room = folder, room

    def made(self, name, make):
        path = self.room / name
        if not path.exists():
            path.write_text(make(), "latin-1")
        return path

    def listing(self, lines):
        """Lines that gcc wrote, with files repeated."""
        repeated = lambda: subprocess.run([sys.executable, TOP / "bench/repeated.py", self.folder, str(lines)], capture_output=True, check=True).stdout.decode("latin-1")
        return self.made(f"gcc-{lines}.s", repeated)

    def blocks(self, lines):
        """Functions that mention no external names: windows, branches and words."""
        block = "f{0}:\n\tlsls r0, r0, #24\n\tlsrs r0, r0, #24\n\tcmp r0, #1\n\tbeq e{0}\n\tmovs r2, #50\n\tadds r3, r3, r2\n\tmovs r2, #0\ne{0}:\n\tbx lr\n"
        count = block.count("\n")
        return self.made(f"blocks-{lines}.s", lambda: "".join(block.format(n) for n in range(lines // count)))

    def loop(self, lines):
        """One function whose run passes through all lines again and again."""
        return self.made(f"loop-{lines}.s", lambda: "f:\n" + "\tadds r0, #1\n\tnop\n" * (lines // 2 - 2) + "\tbl f\n\tbx lr\n")

    def families(self, count):
        """A table of one entry and `count` families with short lines, of which 2,900,000 fit."""
        numbers = lambda n: f"family 1 9 {n % 10} {9 + n // 10 % 90}\nproof\n"
        head = (HEAD.format(3, 1) + "scratch 0\n" + STATES + SUM).replace("pool 24", "pool 9").replace("#24", "#9")
        return self.made(f"families-{count}.peep", lambda: head + "".join(map(numbers, range(count))) + "end\n")

    def repeated(self, name, source, room, version=None):
        """A table's entries repeated, as many as fit into `room` bytes."""

        def text():
            head, *entries = source.read_text().removesuffix("end\n").split("entry\n")
            first, rest = head.split("\n", 1)
            entries = "".join("entry\n" + entry for entry in entries)
            return (f"peep {version}\n" if version else first + "\n") + rest + entries * ((room - len(head) - 4) // len(entries)) + "end\n"

        return self.made(f"{name}-{room}.peep", text)

    def hints(self, room, version=1):
        """A table of exactly `room` bytes, most of them hints that no check reads, since the formula's last clause is empty."""

        def text():
            clauses = len(read_tables.formula(["movs r0, #24", "adds r1, r1, r0"], ["adds r1, #24"], "r1 n z c v".split(), 2).clauses)
            head = HEAD.format(version, 1) + "scratch 0\n" * (version > 1) + STATES + SUM + f"{clauses + 1} 1 0 {clauses}"
            space = room - len(head) - len(" 0\nend\n")
            near = next(n for n in range(11) if (space - 2 * n) % 11 == 0)
            return head + " 4294967295" * ((space - 2 * near) // 11) + " 1" * near + " 0\nend\n"

        return self.made(f"hints{version}-{room}.peep", text)

    def open_logs(self, room):
        """A table of numbers that are left open, with their logs, repeated."""
        listing = self.made("open.s", lambda: "\teors r0, r1\n\teors r0, r1\n\tbx lr\n")
        table = self.room / "open.peep"
        subprocess.run([PEEP, "learn", listing, table, "--left", "2", "--regs", "2", "--budget", "1", "--pool", "255"], check=True, stdout=subprocess.DEVNULL)
        return self.repeated("open", table, room)

    def four(self):
        """A window of four instructions on two registers, so that all sequences of three are run."""
        return self.made("four.s", lambda: "\tmovs r0, #0\n\tadds r0, r0, r1\n\teors r1, r0\n\tmuls r1, r0\n\tbx lr\n")

    def branches(self, count):
        """Branches to the next place."""
        return self.made(f"branches-{count}.s", lambda: "".join(f"\tb n{n}\nn{n}:\n\tnop\n" for n in range(count)))


def cases(inputs):
    """Names, a function from a share of the limit to the command's words."""
    rules = TOP / "examples/rules.peep"
    costs = ["--costs", TOP / "examples/small-multiplier.costs"]
    lines = lambda share: inputs.listing(int(LINES * share))
    families = lambda share: inputs.families(int(FAMILIES * share))
    fewer = lambda share: inputs.families(int(FAMILIES // 10 * share))
    proofs = lambda share: inputs.repeated("proofs", rules, int(BYTES * share))
    out, other = inputs.room / "out", inputs.room / "other"
    few = lambda share: "0,1,255" if share == 1 else "0"
    yield "rewrite, lines that gcc wrote", lambda share: ["rewrite", rules, lines(share), out, "-"]
    yield "rewrite, lines with windows, and an image", lambda share: ["rewrite", rules, inputs.blocks(int(LINES * share)), out, other]
    yield "rewrite, lines by a table of 290,000 families", lambda share: ["rewrite", fewer(share), inputs.blocks(int(LINES * share)), out, other]
    yield "audit, 2,900,000 families", lambda share: ["audit", families(share)]
    yield "audit, bytes of proofs", lambda share: ["audit", proofs(share)]
    yield "audit, bytes of logs of open numbers", lambda share: ["audit", inputs.open_logs(int(BYTES * share))]
    yield "audit, bytes of one line's hints", lambda share: ["audit", inputs.hints(int(BYTES * share))]
    yield "learn, lines", lambda share: ["learn", lines(share), out, "--budget", "1000"]
    yield "learn, lines, a scratch register", lambda share: ["learn", lines(share), out, "--budget", "1000", "--scratch", "1"]
    yield "learn, lines, by costs", lambda share: ["learn", lines(share), out, "--budget", "1000", "--left", "2", *costs]
    yield "learn, 4,438,005 and 2,317,525 sequences", lambda share: ["learn", inputs.four(), out, "--regs", "2", "--left", "4", "--budget", "100", "--pool", few(share)]
    yield "learn, 4,438,005 and 2,317,525 sequences by costs", lambda share: ["learn", inputs.four(), out, "--regs", "2", "--left", "3", "--budget", "100", "--pool", few(share), *costs]
    yield "export of the last of 2,900,000 families", lambda share: ["export", families(share), str(int(FAMILIES * share) + 1), out, other]
    yield "trace, lines, 1,000,000 and 500,000 steps", lambda share: ["trace", inputs.loop(int(LINES * share)), "f", str(int(1_000_000 * share))]
    yield "demo, 20,000 and 10,000 windows", lambda share: ["demo", str(int(20_000 * share))]
    yield "upgrade, bytes of proofs", lambda share: ["upgrade", proofs(share), out]
    yield "upgrade, as much as may be, and half", lambda share: ["upgrade", inputs.hints(int(BYTES * share) - 10), out]
    yield "upgrade, just too long, and half", lambda share: ["upgrade", inputs.hints(int(BYTES * share)), out]
    yield "generalise, just too long, and half", lambda share: ["generalise", inputs.hints(int(BYTES * share), 3), "1", "24", "0", "255", out]
    yield "trim, bytes of proofs", lambda share: ["trim", proofs(share), out]
    yield "trim, 290,000 families", lambda share: ["trim", fewer(share), out]
    yield "generalise, a family more than 290,000", lambda share: ["generalise", fewer(share), "1", "9", "0", "255", out]
    yield "tidy, lines that gcc wrote", lambda share: ["tidy", lines(share), out]
    yield "tidy, 87,381 and 43,690 branches to the next place", lambda share: ["tidy", inputs.branches(int(LINES // 3 * share)), out]


def measured(words):
    """The status, the first printed line, the processor seconds and the peak memory in megabytes."""
    reader, writer = os.pipe()
    child = os.fork()
    if child == 0:
        os.dup2(writer, 1)
        os.close(reader)
        os.execv(PEEP, [str(word) for word in [PEEP, *words]])
    os.close(writer)
    with os.fdopen(reader, "rb") as file:
        first = file.readline().decode().strip()
        for _ in file:
            pass
    _, status, usage = os.wait4(child, 0)
    return os.waitstatus_to_exitcode(status), first, usage.ru_utime + usage.ru_stime, usage.ru_maxrss / 1024


def main():
    folder, room, chosen = pathlib.Path(sys.argv[1]), pathlib.Path(sys.argv[2]), sys.argv[3:]
    room.mkdir(parents=True, exist_ok=True)
    print("| what | half | | the limit | | factor | |\n|---|---|---|---|---|---|---|")
    for name, words_of in cases(Inputs(folder, room)):
        if chosen and not any(word in name for word in chosen):
            continue
        halves, wholes = zip(*((measured(words_of(0.5)), measured(words_of(1))) for _ in range(TURNS)))
        before, after = (min(seconds for _, _, seconds, _ in runs) for runs in (halves, wholes))
        status, first, _, memory = wholes[0]
        mark = " (!)" if after > MOST * before else ""
        print(f"| {name} | {before:.2f} s | {halves[0][3]:.0f} MB | {after:.2f} s | {memory:.0f} MB | {after / before:.1f}{mark} | status {status}, `{first}` |", flush=True)


main()
