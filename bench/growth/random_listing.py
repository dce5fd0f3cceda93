#!/usr/bin/env python3
"""Writes random listings with windows of the example rules, loops, calls, returns, literals, alignments and branches near the end of their reach, a file for
each. Use: random_listing.py FOLDER COUNT [SEED]"""
import random
import sys

WINDOWS = [
    ["lsls {0}, {0}, #24", "lsrs {0}, {0}, #24"],
    ["mov {0}, {1}", "mov {1}, {0}"],
    ["mvns {0}, {0}", "adds {0}, #1"],
    ["eors {0}, {1}", "eors {0}, {1}"],
    ["adds {0}, {0}, {1}", "subs {0}, {0}, {1}"],
    ["ands {0}, {0}"],
    ["rev {0}, {0}", "rev {0}, {0}"],
    ["uxth {0}, {0}", "uxtb {0}, {0}"],
    ["tst {0}, {1}", "tst {0}, {1}"],
    ["cmp {0}, {1}", "cmp {0}, {1}"],
    ["movs {0}, #1", "movs {0}, #255"],
    ["asrs {0}, {0}, #1", "asrs {0}, {0}, #2"],
    ["rsbs {0}, {0}, #0", "rsbs {0}, {0}, #0"],
    ["adcs {0}, {1}", "movs {0}, {0}"],
    ["sbcs {0}, {1}", "movs {0}, {0}"],
    ["rors {0}, {1}", "movs {0}, {0}"],
    ["mov {0}, {0}"],
    ["mov {0}, {0}"],
]
IDLE = ["adds {0}, #1", "movs {0}, #7", "cmp {0}, #3", "str {0}, [{1}]", "ldr {0}, [{1}]", "push {{{0}, lr}}", "mov r8, {0}", "mov {0}, r12", "movs {0}, {1}"]
CONDITIONS = ["eq", "ne", "cs", "cc", "mi", "pl", "vs", "vc", "hi", "ls", "ge", "lt", "gt", "le"]
SIZES = {"b": 2, "bl": 4}


class Writer:
    def __init__(self, rng):
        self.rng = rng
        self.lines = []
        self.registers = rng.randrange(2, 8)
        self.most = rng.choice([8, 40, 120, 127])
        self.lean = rng.random()
        self.labels = 0
        self.literals = []

    def registers_of(self):
        return [f"r{self.rng.randrange(self.registers)}" for _ in range(2)]

    def put(self, line):
        self.lines.append(line)

    def code(self):
        rng = self.rng
        kind = rng.random()
        if kind < 0.5 * self.lean + 0.2:
            registers = self.registers_of()
            for text in rng.choice(WINDOWS):
                self.put(text.format(*registers))
        elif kind < 0.75:
            self.put(rng.choice(IDLE).format(*self.registers_of()))
        elif kind < 0.88:
            # the target is chosen once all labels are known
            self.put(rng.choice(["b", "b" + rng.choice(CONDITIONS), "b" + rng.choice(CONDITIONS), "bl"]) + " ?")
        elif kind < 0.91:
            self.put(rng.choice(["blx r4", "bx lr", "pop {r4, pc}", "pop {pc}", "bl out", "bx r3"]))
        elif kind < 0.95:
            self.literals.append(len(self.literals))
            self.put(f"ldr r{rng.randrange(8)}, l{self.literals[-1]}:")
        elif kind < 0.97:
            self.put(rng.choice([".align 2", ".p2align 3", ".p2align 2,,1", ".p2align 3,,3", ".p2align 4,,10", ".align 1"]))
        else:
            self.pool()
        if rng.random() < 0.3:
            self.put(f"a{self.labels}:")
            self.labels += 1

    def pool(self):
        if self.pooled < len(self.literals):
            self.put(".align 2")
        for literal in self.literals[self.pooled :]:
            self.put(f"l{literal}: .word {literal}")
        self.pooled = len(self.literals)

    pooled = 0

    def near(self, at):
        """A code label near a line, or none."""
        found = [n for n, line in enumerate(self.lines) if line.startswith("a") and line.endswith(":") and abs(n - at) <= self.most]
        return self.lines[self.rng.choice(found)][:-1] if found else None

    def listing(self, count):
        while len(self.lines) < count:
            self.code()
        self.put("bx lr")
        self.pool()
        # a label at the end may come before words
        lines = []
        for n, line in enumerate(self.lines):
            if line.endswith(" ?"):
                target = self.near(n)
                line = line[:-1] + target if target else "adds r0, #1"
            elif line.startswith("ldr r") and line.endswith(":"):
                line = line[:-1]
            lines.append(line)
        return lines


def stands_before_words(lines):
    """Whether a word comes before the next instruction."""
    for line in lines:
        if not line.startswith(".") and not line.endswith(":"):
            return ".word" in line
    return False


def main():
    folder, count, seed = sys.argv[1], int(sys.argv[2]), int(sys.argv[3]) if len(sys.argv) > 3 else 1
    rng = random.Random(seed)
    for n in range(count):
        lines = Writer(rng).listing(rng.choice([10, 30, 100, 300, 1000]))
        code = []
        for at, line in enumerate(lines):
            # only a label of code: words after it make it one of data, which no branch names
            if line.endswith(":") and stands_before_words(lines[at + 1 :]):
                code += [line, "\tmov\tr1, r1"]
            else:
                code.append(line if ":" in line else "\t" + line)
        if rng.random() < 0.3:
            code.insert(0, f".set out, {rng.choice([16_777_216 + rng.randrange(40), 2 * rng.randrange(4000)])}")
        with open(f"{folder}/{n}.s", "w") as file:
            file.writelines(line + "\n" for line in code)


main()
