#!/usr/bin/env python3
"""Reads and audits tables, independently of the crates.

Usage: python3 bench/read_tables.py TABLE ..
       python3 bench/read_tables.py --learn FOLDER OUT [OPTION ..]     for each listing of FOLDER, `peep learn` into the folder OUT, `peep audit`, and this
       python3 bench/read_tables.py --seeded SEED          the digest of the lines of a seed's 64 states

PEEP names another program than the repository's. Tested are of each table: its lines; its first 64 states, against the published generator; the sides of each
entry, which are run on the listed states and on others; its proof, checked by the checker of lrat_lines.py over the formula that formulas.py makes (if CADICAL
is set, that program has to refute the formula too); that each sequence below the right side, shorter or with costs cheaper, is distinguished by a listed state
or listed as open; each open number with its log; that no sequence before the right side was passed over; and that each state after the first 64 distinguishes a
sequence from some window that no earlier state does. Families aren't read.
"""

import functools
import os
import pathlib
import random
import re
import subprocess
import sys
import tempfile
import time

import formulas
from lrat_lines import Checker

TOP = pathlib.Path(__file__).resolve().parent.parent
PEEP = pathlib.Path(os.environ.get("PEEP", TOP / "peep"))
WORD = 0xFFFFFFFF
ITEMS = ["r0", "r1", "r2", "r3", "n", "z", "c", "v"]
MNEMONICS = "adds subs movs cmp lsls lsrs asrs ands eors adcs sbcs rors tst rsbs cmn orrs muls bics mvns mov add sxth sxtb uxth uxtb rev rev16 revsh".split()
TWO = "ands eors lsls lsrs asrs adcs sbcs rors tst rsbs cmp cmn orrs muls bics mvns".split()
NUMBER = "0|[1-9][0-9]*"


class Bad(Exception):
    pass


# ---- states ----


def seeded(seed):
    """64 states of the generator PCG XSH RR 64/32, at stream 54."""
    increment = 54 << 1 | 1
    state = 0

    def advance():
        nonlocal state
        state = (state * 6364136223846793005 + increment) % (1 << 64)

    def word():
        before = state
        advance()
        turn, bits = before >> 59, (before >> 18 ^ before) >> 27 & WORD
        return (bits >> turn | bits << (-turn & 31)) & WORD

    state = (seed + increment) % (1 << 64)
    advance()
    return [([word() for _ in range(4)], word() & 15) for _ in range(64)]


def state_line(state):
    registers, flags = state
    return "state " + " ".join(f"{word:08x}" for word in registers) + f" {flags:x}"


# ---- instructions ----


def two(op, d, m):
    """The text of the two-register operation of a number."""
    name = TWO[op]
    tail = {"rsbs": ", #0", "muls": f", r{d}"}.get(name, "")
    return f"{name} r{d}, r{m}{tail}"


def alphabet(k, pool):
    """The instructions over the first k registers and the pool, in order, as texts."""
    regs = range(k)
    texts = []
    texts += [f"{op} r{d}, r{n}, r{m}" for op in ("adds", "subs") for d in regs for n in regs for m in regs]
    texts += [f"{op} r{d}, r{n}, #{i}" for op in ("adds", "subs") for d in regs for n in regs for i in pool if d != n and i < 8]
    texts += [f"{op} r{d}, #{i}" for op in ("movs", "cmp", "adds", "subs") for d in regs for i in pool]
    for op, most in (("lsls", 31), ("lsrs", 32), ("asrs", 32)):
        texts += [f"{op} r{d}, r{m}, #{i}" for d in regs for m in regs for i in pool if 1 <= i <= most]
    texts += [two(op, d, m) for op in range(16) for d in regs for m in regs]
    texts += [f"{op} r{d}, r{m}" for op in ("movs", "mov", "add") for d in regs for m in regs]
    texts += [f"{op} r{d}, r{m}" for op in "sxth sxtb uxth uxtb rev rev16 revsh".split() for d in regs for m in regs]
    return texts


def operands(text):
    """The mnemonic, the registers in order, and the number after # if there is one."""
    name, rest = text.split(" ", 1)
    parts = rest.split(", ")
    return name, [int(part[1:]) for part in parts if part[0] == "r"], next((int(p[1:]) for p in parts if p[0] == "#"), None)


def halfword(text):
    """The encoding."""
    name, r, i = operands(text)
    d, m = r[0], r[-1]
    if name == "muls":
        return 0x4340 | r[1] << 3 | d
    if name == "rsbs":
        return 0x4240 | r[1] << 3 | d
    if len(r) == 3:
        return (0x1A00 if name == "subs" else 0x1800) | r[2] << 6 | r[1] << 3 | d
    if len(r) == 1:
        return 0x2000 | ["movs", "cmp", "adds", "subs"].index(name) << 11 | d << 8 | i
    if i is not None and name in ("adds", "subs"):
        return (0x1E00 if name == "subs" else 0x1C00) | i << 6 | m << 3 | d
    if i is not None:
        return ["lsls", "lsrs", "asrs"].index(name) << 11 | i % 32 << 6 | m << 3 | d
    if name in TWO:
        return 0x4000 | TWO.index(name) << 6 | m << 3 | d
    return {"movs": 0, "mov": 0x4600, "add": 0x4400, "sxth": 0xB200, "sxtb": 0xB240, "uxth": 0xB280, "uxtb": 0xB2C0, "rev": 0xBA00, "rev16": 0xBA40, "revsh": 0xBAC0}[name] | m << 3 | d


def signed(value, bits):
    return (value ^ 1 << bits - 1) - (1 << bits - 1) & WORD


def summed(x, y, carry):
    """The sum of two words and a carry, with its carry and its overflow."""
    total = x + y + carry
    value = total & WORD
    return value, total >> 32, ((x ^ value) & (y ^ value)) >> 31


def shifted(kind, x, amount, carry):
    if amount == 0:
        return x, carry
    if kind == "lsls":
        return x << amount & WORD, x << amount >> 32 & 1
    if kind == "lsrs":
        return x >> amount, x >> amount - 1 & 1
    if kind == "asrs":
        wide = x - (x >> 31 << 32)
        return wide >> amount & WORD, wide >> amount - 1 & 1
    value = (x >> amount % 32 | x << -amount % 32) & WORD
    return value, value >> 31


def step(name, r, i, registers, flags):
    """The registers and the flags (N, Z, C, V from bit 3 down) after an instruction."""
    d, x = r[0], registers[r[0]]
    y = i if i is not None and len(r) == 1 else registers[r[-1]]
    c, v = flags >> 1 & 1, flags & 1
    value, sets = None, True
    if name in ("adds", "subs", "cmp", "cmn", "adcs", "sbcs", "rsbs", "add"):
        carry = {"adds": 0, "cmn": 0, "add": 0, "adcs": c, "sbcs": c}.get(name, 1)
        if name == "rsbs":
            x, y = registers[r[1]] ^ WORD, 0
        else:
            if len(r) == 3:
                x = registers[r[1]]
            if len(r) == 2 and i is not None:
                x, y = registers[r[1]], i
            if name in ("subs", "cmp", "sbcs"):
                y ^= WORD
        value, c2, v2 = summed(x, y, carry)
        if name == "add":
            sets = False
        else:
            c, v = c2, v2
    elif name in ("lsls", "lsrs", "asrs", "rors"):
        if i is not None:
            value, c = shifted(name, y, i, c)
        else:
            value, c = shifted(name, x, y & 255, c)
    elif name in ("ands", "tst"):
        value = x & y
    elif name == "eors":
        value = x ^ y
    elif name == "orrs":
        value = x | y
    elif name == "bics":
        value = x & ~y
    elif name == "muls":
        value = x * registers[r[1]] & WORD
    elif name == "mvns":
        value = y ^ WORD
    elif name == "movs":
        value = y
    else:
        sets = False
        value = {
            "mov": lambda: y,
            "sxth": lambda: signed(y & 0xFFFF, 16),
            "sxtb": lambda: signed(y & 0xFF, 8),
            "uxth": lambda: y & 0xFFFF,
            "uxtb": lambda: y & 0xFF,
            "rev": lambda: int.from_bytes(y.to_bytes(4, "little"), "big"),
            "rev16": lambda: (y & 0xFF00FF) << 8 | y >> 8 & 0xFF00FF,
            "revsh": lambda: signed((y & 0xFF) << 8 | y >> 8 & 0xFF, 16),
        }[name]()
    if name not in ("cmp", "cmn", "tst"):
        registers = [*registers[:d], value, *registers[d + 1 :]]
    if sets:
        flags = (value >> 31) << 3 | (value == 0) << 2 | c << 1 | v
    return registers, flags


PARTS = {}


def run(texts, state):
    registers, flags = state
    for text in texts:
        if text not in PARTS:
            PARTS[text] = operands(text)
        registers, flags = step(*PARTS[text], registers, flags)
    return registers, flags


def packed(state):
    """A state as one number: the registers of 32 bits each, then the flags."""
    registers, flags = state
    return sum(word << 32 * place for place, word in enumerate(registers)) | flags << 128


def mask_bits(mask):
    """The bits of a packed state that belong to a mask."""
    return sum(WORD << 32 * place for place in range(4) if f"r{place}" in mask) | sum(1 << 131 - place for place in range(4) if "nzcv"[place] in mask)


# ---- texts ----


class Lines:
    """The lines of a text, with the next one to be read."""

    def __init__(self, text):
        if not text.endswith("\n"):
            raise Bad("the last line has no newline")
        self.lines, self.at = text[:-1].split("\n"), 0

    def match(self, pattern):
        """The parts of the next line, if it has a given form."""
        found = self.at < len(self.lines) and re.fullmatch(pattern, self.lines[self.at])
        if found:
            self.at += 1
        return found

    def take(self, pattern):
        found = self.match(pattern)
        if not found:
            raise Bad(f"line {self.at + 1}")
        return found

    def all(self, pattern):
        while found := self.match(pattern):
            yield found


def proof_line(text):
    """A proof line in the form of lrat_lines.py."""
    words = text.split(" ")
    if words[1] == "d":
        return int(words[0]), [int(word) for word in words[2:-1]]
    end = words.index("0")
    literals = [int(word) for word in words[1:end]]
    if len({abs(literal) for literal in literals}) < len(literals) or any(abs(literal) > 200000 for literal in literals):
        raise Bad(f"literals of {text}")
    return int(words[0]), literals, [int(word) for word in words[end + 1 : -1]]


PROOF = f"[1-9][0-9]*((( -?[1-9][0-9]*)* 0( -?[1-9][0-9]*)*)| d( [1-9][0-9]*)*) 0"


def read_entry(lines):
    entry = {
        "left": [found[1] for found in lines.all("left (.*)")],
        "right": [found[1] for found in lines.all("right (.*)")],
        "mask": lines.take("mask" + "".join(f"( {item})?" for item in ITEMS))[0].split(" ")[1:],
    }
    lines.take("proof")
    entry["proof"] = [proof_line(found[0]) for found in lines.all(PROOF)]
    entry["opens"] = []
    while found := lines.match(f"open ({NUMBER})"):
        entry["opens"].append((int(found[1]), [proof_line(line[0]) for line in lines.all(PROOF)]))
    numbers = [number for number, _ in entry["opens"]]
    if not 1 <= len(entry["left"]) <= 5 or len(entry["right"]) > 5 or numbers != sorted(set(numbers)):
        raise Bad(f"the entry before line {lines.at + 1}")
    return entry


def read(text):
    lines = Lines(text)
    table = {"version": int(lines.take("peep ([1-4])")[1]), "scratch": 0, "costs": None}
    for word, least, most in (("regs", 1, 4), ("left", 1, 5), ("seed", 0, WORD), ("budget", 1, 1000000)):
        table[word] = int(lines.take(f"{word} ({NUMBER})")[1])
        if not least <= table[word] <= most:
            raise Bad(word)
    table["pool"] = [int(word) for word in lines.take(f"pool(( ({NUMBER}))+)")[1].split()]
    if table["pool"] != sorted(set(table["pool"])) or table["pool"][-1] > 255 or len(table["pool"]) > 16:
        raise Bad("pool")
    if table["version"] > 1:
        table["scratch"] = int(lines.take("scratch ([01])")[1])
    if table["version"] == 4:
        table["costs"] = tuple(int(word) for word in lines.take(f"costs(( ({NUMBER})){{28}})")[1].split())
        if not all(1 <= cost <= 64 for cost in table["costs"]):
            raise Bad("costs")
    table["states"] = [([int(word, 16) for word in found[0].split()[1:5]], int(found[0].split()[5], 16)) for found in lines.all("state( [0-9a-f]{8}){4} [0-9a-f]")]
    table["entries"] = []
    while lines.match("entry"):
        table["entries"].append(read_entry(lines))
    lines.take("end")
    if lines.at < len(lines.lines):
        raise Bad("lines behind the end")
    return table


# ---- the audit ----


class Sequences:
    """The sequences over an alphabet by number, what each leaves of the first state, and its weight: those of fewer instructions than `left`, or with costs
    of at most as many."""

    def __init__(self, k, pool, left, first, costs):
        self.alphabet = alphabet(k, pool)
        self.numbers = {text: place for place, text in enumerate(self.alphabet)}
        self.longest, self.first, self.costs = left - (costs is None), first, costs
        self.left_by, self.weights = None, None

    def weight(self, texts):
        """What a sequence costs, or without costs its length."""
        return sum(1 if self.costs is None else self.costs[MNEMONICS.index(text.split(" ")[0])] for text in texts)

    def count(self, length):
        """How many sequences have fewer instructions."""
        return sum(len(self.alphabet) ** n for n in range(length))

    def at(self, number):
        length = 0
        while number >= len(self.alphabet) ** length:
            number -= len(self.alphabet) ** length
            length += 1
        texts = []
        for _ in range(length):
            number, place = divmod(number, len(self.alphabet))
            texts.append(self.alphabet[place])
        return texts[::-1]

    def number_of(self, texts):
        number = 0
        for text in texts:
            number = number * len(self.alphabet) + self.numbers[text]
        return self.count(len(texts)) + number

    def fill(self):
        level, weights = [self.first], [0]
        costs = [self.weight([instr]) for instr in self.alphabet]
        self.left_by, self.weights = [packed(self.first)], [0]
        for _ in range(self.longest):
            level = [run([instr], state) for state in level for instr in self.alphabet]
            weights = [weight + cost for weight in weights for cost in costs]
            self.left_by += map(packed, level)
            self.weights += weights

    def below(self, left):
        """The numbers of those no longer than a left side that weigh less."""
        if self.left_by is None:
            self.fill()
        most = self.weight(left)
        return [number for number, weight in zip(range(self.count(len(left) + 1)), self.weights) if weight < most]

    def candidates(self, left, bits, below):
        """Those that the first state doesn't distinguish, lightest first."""
        want = packed(run(left, self.first))
        return sorted((number for number in below if not (self.left_by[number] ^ want) & bits), key=lambda number: (self.weights[number], number))


@functools.cache
def sequences(k, pool, left, seed, costs):
    return Sequences(k, pool, left, seeded(seed)[0], costs)


def registers_of(side):
    return list(dict.fromkeys(register for text in side for register in operands(text)[1]))


def formula(left, right, mask, k):
    """The formula that the sides differ."""
    b = formulas.Builder()
    start = [[b.input() for _ in range(32)] for _ in range(k)], {name: b.input() for name in "nzcv"}
    ends = []
    for side in (left, right):
        r, f = start
        for text in side:
            r, f = formulas.step(b, halfword(text), r, f)
        ends.append((r, f))
    found = []
    (r, f), (other, flags) = ends
    for place in range(k):
        if f"r{place}" in mask:
            found += b.each(b.xor, r[place], other[place])
    found += [b.xor(f[name], flags[name]) for name in "nzcv" if name in mask]
    b.or_clause(found)
    return b


def refuted_by_another(b, program):
    with tempfile.NamedTemporaryFile("w", suffix=".cnf") as file:
        file.write(f"p cnf {b.variables} {len(b.clauses)}\n" + "".join(" ".join(map(str, [*clause, 0])) + "\n" for clause in b.clauses))
        file.flush()
        return subprocess.run([program, "-q", "-n", file.name], capture_output=True).returncode == 20


def is_proof(b, lines):
    checker, refuted = Checker(b.clauses), [] in b.clauses
    for line in lines:
        if checker.fault(line):
            return False
        checker.add(line)
        refuted = refuted or (len(line) == 3 and not line[1])
    return refuted


def is_log(b, lines, budget):
    """Whether the log has as many clauses as the budget, none empty, each accepted, and none containing all literals of an earlier one."""
    checker, clauses, added = Checker(b.clauses), [set(clause) for clause in b.clauses], 0
    for line in lines:
        if checker.fault(line):
            return False
        if len(line) == 3:
            if not line[1] or any(clause <= set(line[1]) for clause in clauses):
                return False
            clauses.append(set(line[1]))
            added += 1
        checker.add(line)
    return added == budget


class Audit:
    def __init__(self, table, others):
        self.table, self.others = table, others
        self.earned = set()
        self.counts = dict(told=0, candidates=0, proofs=0, lines=0, logs=0)

    def sides(self, entry):
        """The alphabet of the left side's registers, if the sides are valid."""
        table, left, right = self.table, entry["left"], entry["right"]
        try:
            named = registers_of(left)
        except (ValueError, IndexError):
            raise Bad("a side is no instruction") from None
        k = len(named)
        if named != list(range(k)) or not 1 <= k <= table["regs"] or not 1 <= len(left) <= table["left"] or len(right) > len(left):
            raise Bad("sides")
        most = min(k + table["scratch"], 4)
        over, own = (sequences(count, tuple(table["pool"]), table["left"], table["seed"], table["costs"]) for count in (most, k))
        if not all(text in own.numbers for text in left) or not all(text in over.numbers for text in right) or any(f"r{place}" in entry["mask"] for place in range(k, 4)):
            raise Bad("sides over another alphabet")
        return most, over

    def told_at(self, left, seq, bits, states):
        """The index of the first state that distinguishes the two."""
        return next((place for place, state in enumerate(states) if (packed(run(left, state)) ^ packed(run(seq, state))) & bits), None)

    def entry(self, entry):
        k, over = self.sides(entry)
        left, right, mask, bits = entry["left"], entry["right"], entry["mask"], mask_bits(entry["mask"])
        states = self.table["states"]
        if self.told_at(left, right, bits, states + self.others) is not None:
            raise Bad("a state tells the sides")
        b = formula(left, right, mask, k)
        if not is_proof(b, entry["proof"]):
            raise Bad("proof")
        if "CADICAL" in os.environ and not refuted_by_another(b, os.environ["CADICAL"]):
            raise Bad("another solver finds a state")
        self.counts["proofs"] += len(entry["proof"]) > 0
        self.counts["lines"] += len(entry["proof"])
        weight, own = over.weight(right), over.number_of(right)
        if right != left and weight >= over.weight(left):
            raise Bad("a right side that is no lighter, and another")
        opens, below = dict(entry["opens"]), over.below(left)
        candidates = over.candidates(left, bits, below)
        self.counts["told"] += len(below) - len(candidates)
        self.counts["candidates"] += len(candidates)
        for number in candidates:
            at = self.told_at(left, over.at(number), bits, states)
            if at is not None:
                self.earned.add(at)
            elif over.weights[number] < weight and number not in opens:
                raise Bad(f"untold {number}")
            elif over.weights[number] == weight and number < own and not entry["opens"] and self.table["budget"] > 1:
                raise Bad(f"passed over {number}")
        for number, log in entry["opens"]:
            if number >= min(over.count(len(left) + 1), len(over.weights)) or over.weights[number] >= weight or self.told_at(left, over.at(number), bits, states) is not None:
                raise Bad(f"open {number}")
            if not is_log(formula(left, over.at(number), mask, k), log, self.table["budget"]):
                raise Bad(f"the log of {number}")
            self.counts["logs"] += 1


def audit(text):
    """Audits a table; returns the figures of an accepted one."""
    table = read(text)
    if table["states"][:64] != seeded(table["seed"]):
        raise Bad("the states of the seed")
    numbers = random.Random(5)
    corners = [0, 1, 2, 31, 32, 33, 255, 256, 0x7FFFFFFF, 0x80000000, 0x80000001, 0xFFFF8000, WORD]
    others = [([numbers.choice([numbers.getrandbits(32), numbers.choice(corners), numbers.getrandbits(8)]) for _ in range(4)], numbers.getrandbits(4)) for _ in range(500)]
    audit = Audit(table, others)
    for place, entry in enumerate(table["entries"], 1):
        try:
            audit.entry(entry)
        except Bad as bad:
            raise Bad(f"entry {place}: {bad}") from None
    for place in range(64, len(table["states"])):
        if place not in audit.earned:
            raise Bad(f"no need of state {place + 1}")
    entries = table["entries"]
    return {
        "windows": len(entries),
        "shortened": sum(entry["right"] != entry["left"] for entry in entries),
        "open": sum(len(entry["opens"]) for entry in entries),
        "states": len(table["states"]),
        **audit.counts,
    }


# ---- the command ----


def timed(*words):
    start = time.monotonic()
    done = subprocess.run([PEEP, *words], capture_output=True, text=True)
    if done.returncode:
        raise SystemExit(f"{' '.join(map(str, words))}: {done.stdout}{done.stderr}")
    return done.stdout.strip(), time.monotonic() - start


def learnt(listing, folder, options):
    """Learns from a listing and audits with the program; returns what each printed."""
    table = folder / (listing.stem + ".peep")
    said, learning = timed("learn", listing, table, *options)
    answer, auditing = timed("audit", table)
    print(f"{listing.stem}: {said} in {learning:.2f} s; audit: {answer} in {auditing:.2f} s", flush=True)
    return table, (learning, auditing)


def read_all(tables):
    totals = {}
    for table in tables:
        start = time.monotonic()
        figures = audit(pathlib.Path(table).read_text())
        for name, count in figures.items():
            totals[name] = totals.get(name, 0) + count
        print(f"{pathlib.Path(table).stem}: {figures}, read in {time.monotonic() - start:.0f} s", flush=True)
    print(f"all {len(tables)}: {totals}")


def main():
    if sys.argv[1] == "--seeded":
        text = "".join(state_line(state) + "\n" for state in seeded(int(sys.argv[2])))
        digest = 0
        for byte in text.encode():
            digest = formulas.rotated(digest, 5) ^ byte
        print(f"{digest:#010x}")
    elif sys.argv[1] == "--learn":
        folder = pathlib.Path(sys.argv[3])
        folder.mkdir(parents=True, exist_ok=True)
        found = [learnt(listing, folder, sys.argv[4:]) for listing in sorted(pathlib.Path(sys.argv[2]).glob("*.s"))]
        print(f"learnt in {sum(times[0] for _, times in found):.1f} s, audited in {sum(times[1] for _, times in found):.1f} s", flush=True)
        read_all([table for table, _ in found])
    else:
        read_all(sys.argv[1:])


if __name__ == "__main__":
    main()
