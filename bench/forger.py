#!/usr/bin/env python3
"""Makes false tables that look right, has `peep audit` judge them, and compares its answers with those of an independent implementation of the rules.

Usage: bench/forger.py FOLDER ROOM [COUNT]

FOLDER has listings. From them tables of each version are learnt into ROOM, outside the repository, and their entries are generalised to families; the tables of
examples/ and tables/ are added. At most COUNT (3) entries of each are taken, each with its families as a table of its own, and changed: right sides, also such
that differ from the left side in one word only, masks, costs, numbers and ranges of families, lines of proofs, open numbers and their logs, and parts of one
entry put into another. The expected verdict is computed here with `formulas.py`, `read_tables.py` and the checker of `lrat_lines.py`, so a changed table that
is accepted is one whose proof that checker accepts too. PEEP names another program than the repository's; JOBS (2) processes run at a time. With `cadical` on
the path, a right side that differs in one word gets the proof that the sides are equal except for it.
"""

import collections
import functools
import itertools
import os
import pathlib
import random
import re
import shutil
import subprocess
import sys
import tempfile
from concurrent.futures import ProcessPoolExecutor

import formulas
import lrat_lines
import read_tables as tables
from lrat_lines import Checker

TOP = pathlib.Path(__file__).resolve().parent.parent
PEEP = pathlib.Path(os.environ.get("PEEP", TOP / "crates/peep/out/peep"))
JOBS = int(os.environ.get("JOBS", "2"))
EXAMPLES = ("moves.peep", "rules.peep", "firmware.peep")
SHIPPED = ("size.peep", "size-rare.peep", "size-families.peep", "size-numbers.peep", "size-others.peep")
# the options for learning from each listing
SETTINGS = {
    "plain": ["--budget", "1000"],
    "scratch": ["--regs", "2", "--left", "2", "--scratch", "1", "--budget", "50", "--pool", "0,1,24,255"],
    "open": ["--regs", "2", "--left", "2", "--budget", "3", "--pool", "0,24"],
    "costs": ["--regs", "2", "--left", "2", "--budget", "100", "--pool", "1,3,24", "--costs", str(TOP / "examples/small-multiplier.costs")],
}
# sides and masks whose numbers can be generalised, some of them to a range of one value only
RAISED = (
    (("movs r0, #24", "adds r1, r1, r0"), ("adds r1, #24",), "r1 n z c v"),
    (("movs r0, #24", "cmp r1, r0"), ("cmp r1, #24",), "r1 n z c v"),
    (("movs r0, #0",), ("eors r0, r0",), "z"),
    (("movs r0, #0",), ("eors r0, r0",), "r0"),
    (("adds r0, #0",), (), "r0"),
    (("subs r0, #0",), ("cmp r0, #0",), "r0 c"),
    (("movs r0, #0", "orrs r0, r1"), ("movs r0, r1",), "r0 n z"),
    (("movs r0, #24", "ands r0, r1"), ("movs r0, #24", "ands r0, r1"), "r0"),
)
HOLES = ("movs", "cmp", "adds", "subs")
# for more sequences, this script doesn't search for those that no state distinguishes
SEQUENCES = 500_000
EDGES = (0, 1, 2, 0x7FFFFFFF, 0x80000000, 0x80000001, 0xFFFFFFFF, 0xFFFFFFFE, 0x8000, 0xFFFF, 0xFF, 0x80, 0xFF00, 0x10000)


# ---- tables ----


class Table:
    """A table: its settings by word, the lines of its states, its entries and its families."""

    def __init__(self, text):
        lines = tables.Lines(text)
        self.version = int(lines.take("peep ([1-4])")[1])
        self.head = {}
        while found := lines.match("(regs|left|seed|budget|pool|scratch|costs) (.*)"):
            self.head[found[1]] = [int(word) for word in found[2].split()]
        self.states = [found[0] for found in lines.all("state .*")]
        self.entries = []
        while lines.match("entry"):
            self.entries.append(tables.read_entry(lines))
        self.families = []
        while found := lines.match(r"family (\d+) (\d+) (\d+) (\d+)"):
            lines.take("proof")
            self.families.append({"numbers": [int(word) for word in found.groups()], "proof": [tables.proof_line(line[0]) for line in lines.all(tables.PROOF)]})
        lines.take("end")

    def copy(self):
        """A copy whose parts can be changed."""
        other = object.__new__(Table)
        other.version, other.head, other.states = self.version, dict(self.head), list(self.states)
        other.entries = [{name: list(part) for name, part in entry.items()} for entry in self.entries]
        other.families = [{name: list(part) for name, part in family.items()} for family in self.families]
        return other

    def of(self, at):
        """The table of an entry, counted from 0, and of its families."""
        other = self.copy()
        other.entries = [other.entries[at]]
        other.families = [{**family, "numbers": [1, *family["numbers"][1:]]} for family in other.families if family["numbers"][0] == at + 1]
        return other

    def text(self):
        out = [f"peep {self.version}"] + [" ".join([word, *map(str, numbers)]) for word, numbers in self.head.items()] + self.states
        for entry in self.entries:
            out += ["entry"] + [f"left {side}" for side in entry["left"]] + [f"right {side}" for side in entry["right"]] + [" ".join(["mask", *entry["mask"]]), "proof"]
            out += map(lrat_lines.text, entry["proof"])
            for number, log in entry["opens"]:
                out += [f"open {number}", *map(lrat_lines.text, log)]
        for family in self.families:
            out += [" ".join(["family", *map(str, family["numbers"])]), "proof", *map(lrat_lines.text, family["proof"])]
        return "\n".join([*out, "end", ""])

    def one(self, word, default=0):
        return self.head.get(word, [default])[0]

    def costs(self):
        return tuple(self.head["costs"]) if "costs" in self.head else None

    def sequences(self):
        """The number of sequences over the most registers that the header allows."""
        size = len(tables.alphabet(min(self.one("regs") + self.one("scratch"), 4), self.head["pool"]))
        return sum(size**n for n in range(self.one("left") + (self.costs() is not None)))

    def over(self, k):
        """The sequences over k registers, or one more with a scratch register."""
        return tables.sequences(min(k + self.one("scratch"), 4), tuple(self.head["pool"]), self.one("left"), self.one("seed"), self.costs())


# ---- what is due ----


def family_formula(left, right, numbers, mask, k):
    """The formula that the sides of a family differ for a value of its range."""
    _, number, low, high = numbers
    b = formulas.Builder()
    start = [[b.input() for _ in range(32)] for _ in range(k)], {name: b.input() for name in "nzcv"}
    value = [b.input() for _ in range(8)]
    word = value + [False] * 24
    for j in range(7, -1, -1):
        if low >> j & 1:
            b.or_clause([value[j]] + [value[i] for i in range(7, j, -1) if not low >> i & 1])
    for j in range(7, -1, -1):
        if not high >> j & 1:
            b.or_clause([-value[j]] + [-value[i] for i in range(7, j, -1) if high >> i & 1])
    ends = []
    for side in (left, right):
        r, f = start
        for text in side:
            r, f = raised_step(b, text, number, word, r, f)
        ends.append((r, f))
    (r, f), (other, flags) = ends
    found = [bit for place in range(k) if f"r{place}" in mask for bit in b.each(b.xor, r[place], other[place])]
    b.or_clause(found + [b.xor(f[name], flags[name]) for name in "nzcv" if name in mask])
    return b


def is_hole(text, number):
    name, registers, i = tables.operands(text)
    return name in HOLES and len(registers) == 1 and i == number


def raised_step(b, text, number, word, r, f):
    """The registers and flags after an instruction in which a word takes the place of a number."""
    if not is_hole(text, number):
        return formulas.step(b, tables.halfword(text), r, f)
    name, (d, *_), _ = tables.operands(text)
    r, f = [list(it) for it in r], dict(f)
    value = word
    if name != "movs":
        value, f["c"], f["v"] = b.add(r[d], word if name == "adds" else formulas.inverted(word), name != "adds")
    f["z"], f["n"] = b.zero(value), value[31]
    if name != "cmp":
        r[d] = value
    return r, f


def proof_fault(b, lines):
    """The number of the refused line of a proof, 0 if none is the empty clause, or None."""
    checker, refuted = Checker(b.clauses), [] in b.clauses
    for place, line in enumerate(lines, 1):
        if checker.fault(line):
            return place
        checker.add(line)
        refuted = refuted or (len(line) == 3 and not line[1])
    return None if refuted else 0


class Judge:
    """What an audit has to answer for tables. Formulas and searched sequences are cached."""

    def __init__(self):
        self.untold = {}
        self.formula = functools.lru_cache(2000)(lambda left, right, mask, k: tables.formula(left, right, mask, k))
        self.family = functools.lru_cache(2000)(family_formula)

    def due(self, table):
        """The expected line, and whether the audit may name a sequence or an open number instead: where there are too many sequences to search."""
        is_many = False
        seeded = [tables.state_line(state) for state in tables.seeded(table.one("seed"))]
        for place, line in enumerate(seeded, 1):
            if table.states[place - 1 : place] != [line]:
                return f"refused states {place}", False
        wide = table.sequences()
        if wide > 5_000_000:
            return f"refused wide {wide}", False
        for number, entry in enumerate(table.entries, 1):
            fault = self.entry(table, entry)
            is_many |= fault == "many"
            if fault and fault != "many":
                return f"refused entry {number} {fault}", is_many
        for number, family in enumerate(table.families, 1):
            if fault := self.family_fault(table, family):
                return f"refused family {number} {fault}", is_many
        return f"entries {len(table.entries)} open {sum(len(entry['opens']) for entry in table.entries)}", is_many

    def fits(self, table, entry):
        """How many registers the left side names, if the sides and the mask are valid."""
        left, right = entry["left"], entry["right"]
        named = tables.registers_of(left)
        k = len(named)
        if named != list(range(k)) or not 1 <= k <= table.one("regs") or not 1 <= len(left) <= table.one("left") or len(right) > len(left):
            return None
        own, over = set(tables.alphabet(k, table.head["pool"])), table.over(k)
        if not own.issuperset(left) or not all(text in over.numbers for text in right) or any(f"r{place}" in entry["mask"] for place in range(k, 4)):
            return None
        return k if table.costs() is None or over.weight(right) <= over.weight(left) else None

    def entry(self, table, entry):
        k = self.fits(table, entry)
        if k is None:
            return "1"
        over, left, right, mask = table.over(k), tuple(entry["left"]), tuple(entry["right"]), tuple(entry["mask"])
        most = min(k + table.one("scratch"), 4)
        fault = proof_fault(self.formula(left, right, mask, most), entry["proof"])
        if fault is not None:
            return f"2 {fault}" if fault else "3"
        if not right:
            # nothing is below it
            return f"5 {entry['opens'][0][0]}" if entry["opens"] else None
        if over.count(over.longest + 1) > SEQUENCES:
            return "many"
        states, bits = [state_of(line) for line in table.states], tables.mask_bits(mask)
        named = {number for number, _ in entry["opens"]}
        key = left, right, mask, tuple(table.states), tuple(table.head["pool"]), table.one("left"), table.costs(), most
        if key not in self.untold:
            self.untold[key] = self.all_untold(over, left, right, bits, states)
        for number in self.untold[key]:
            if number not in named:
                return f"4 {number}"
        for number, log in entry["opens"]:
            is_below = number < min(over.count(len(left) + 1), len(over.weights)) and over.weights[number] < over.weight(right)
            if not is_below or number not in self.untold[key] or not tables.is_log(self.formula(left, tuple(over.at(number)), mask, most), log, table.one("budget")):
                return f"5 {number}"
        return None

    def all_untold(self, over, left, right, bits, states):
        """The sequences below the right side that no state distinguishes from the left side, lightest first."""
        over.below(left)
        most, ends = over.weight(right), [tables.packed(tables.run(left, state)) for state in states]
        below = [number for number in range(over.count(len(left) + 1)) if number < len(over.weights) and over.weights[number] < most and not (over.left_by[number] ^ ends[0]) & bits]
        told = lambda number: any((tables.packed(tables.run(over.at(number), state)) ^ end) & bits for state, end in zip(states, ends))
        return sorted((number for number in below if not told(number)), key=lambda number: (over.weights[number], number))

    def family_fault(self, table, family):
        at, number, low, high = family["numbers"]
        if not 1 <= at <= len(table.entries) or number not in table.head["pool"] or not low <= number <= high <= 255:
            return "1"
        entry = table.entries[at - 1]
        if not any(is_hole(text, number) for text in entry["left"]):
            return "1"
        most = min(len(tables.registers_of(entry["left"])) + table.one("scratch"), 4)
        fault = proof_fault(self.family(tuple(entry["left"]), tuple(entry["right"]), tuple(family["numbers"]), tuple(entry["mask"]), most), family["proof"])
        return None if fault is None else f"2 {fault}" if fault else "3"


def state_of(line):
    words = line.split()[1:]
    return [int(word, 16) for word in words[:4]], int(words[4], 16)


# ---- forgeries ----


def changed_proofs(rng, lines, clauses, count):
    """Proofs that differ in one place, each with a description of the change."""
    if not lines:
        number = len(clauses) + 1
        yield "a line that names itself", [(number, [], [number])]
        yield "a line of one clause", [(number, [], [len(clauses)])]
        yield "a line without hints", [(number, [], [])]
        return
    yield "no line", []
    yield "the last line alone", lines[-1:]
    for _ in range(count):
        at = rng.randrange(len(lines))
        line, rest = lines[at], (lines[:at], lines[at + 1 :])
        put = lambda *new: [*rest[0], *new, *rest[1]]
        yield "a line left out", put()
        yield "a line twice", put(line, line)
        if at + 1 < len(lines):
            yield "two lines exchanged", [*rest[0], lines[at + 1], line, *lines[at + 2 :]]
        if len(line) != 3:
            continue
        number, literals, hints = line
        if literals:
            n = rng.randrange(len(literals))
            yield "a literal left out", put((number, literals[:n] + literals[n + 1 :], hints))
            yield "a literal turned", put((number, literals[:n] + [-literals[n]] + literals[n + 1 :], hints))
        if hints:
            n = rng.randrange(len(hints))
            yield "a hint left out", put((number, literals, hints[:n] + hints[n + 1 :]))
            yield "another hint", put((number, literals, hints[:n] + [rng.randrange(1, number + 1)] + hints[n + 1 :]))
            yield "a minus", put((number, literals, hints[:n] + [-hints[n]] + hints[n + 1 :]))
        yield "an id less", put((number - 1, literals, hints))
        yield "the empty clause early", put((number, [], hints))


def forged_entries(rng, table, entry, others, count):
    """Changes of a table of one entry: a description of each, and the table."""

    def but(**parts):
        other = table.copy()
        other.entries[0].update(parts)
        return other

    k = len(tables.registers_of(entry["left"]))
    most = min(k + table.one("scratch"), 4)
    instrs = tables.alphabet(most, table.head["pool"])
    own = tables.alphabet(k, table.head["pool"])
    for _ in range(count):
        for side, choice in (("right", instrs), ("left", own)):
            if entry[side]:
                n = rng.randrange(len(entry[side]))
                yield f"another instruction on the {side}", but(**{side: entry[side][:n] + [rng.choice(choice)] + entry[side][n + 1 :]})
    if entry["right"]:
        yield "a shorter right side", but(right=entry["right"][:-1])
    yield "an instruction more on the right", but(right=entry["right"] + [rng.choice(instrs)])
    yield "the right side turned round", but(right=entry["right"][::-1])
    for item in tables.ITEMS:
        mask = set(entry["mask"]) ^ {item}
        yield "a mask with an item more" if item in mask else "a mask that lacks an item", but(mask=[it for it in tables.ITEMS if it in mask])
    formula = tables.formula(entry["left"], entry["right"], entry["mask"], most)
    for what, lines in changed_proofs(rng, entry["proof"], formula.clauses, count):
        yield f"proof: {what}", but(proof=lines)
    for n, (number, log) in enumerate(entry["opens"][:count]):
        opens = lambda *new: but(opens=[*entry["opens"][:n], *new, *entry["opens"][n + 1 :]])
        yield "an open number less", opens()
        if number + 1 not in dict(entry["opens"]):
            yield "another open number", opens((number + 1, log))
        other = rng.choice(entry["opens"])
        yield "a log of another number", opens((number, other[1]))
        for what, lines in changed_proofs(rng, log, [[]], 1):
            yield f"log: {what}", opens((number, lines))
    yield "a number left open that isn't", but(opens=sorted([*entry["opens"], (rng.randrange(10**4, 10**6), entry["opens"][0][1] if entry["opens"] else [])]))
    for other in rng.sample(others, min(3, len(others))):
        yield "another entry's proof", but(proof=other["proof"])
        yield "another entry's right side", but(right=other["right"])
        yield "another entry's left side", but(left=other["left"])
        if other["opens"] and entry["opens"]:
            yield "another entry's logs", but(opens=[(number, log) for (number, _), (_, log) in zip(entry["opens"], other["opens"])])


def forged_heads(rng, table):
    """Changes of what precedes the entries; those of the alphabet if it is small."""

    def but(**parts):
        other = table.copy()
        for word, numbers in parts.items():
            other.head[word] = numbers
        return other

    pool = table.head["pool"]
    if table.sequences() < SEQUENCES // 10:
        if len(pool) < 16:
            yield "a pool with a number more", but(pool=sorted({*pool, next(n for n in range(1, 256) if n not in pool)}))
        yield "a pool with a number less", but(pool=pool[:-1] or [7])
        if "scratch" in table.head:
            yield "scratch the other way", but(scratch=[1 - table.one("scratch")])
    yield "another budget", but(budget=[table.one("budget") + 1])
    yield "another seed", but(seed=[table.one("seed") + 1])
    yield "a register less", but(regs=[max(table.one("regs") - 1, 1)])
    yield "a shorter limit", but(left=[max(table.one("left") - 1, 1)])
    for at in rng.sample(range(len(table.states)), 3) + [len(table.states) - 1]:
        other = table.copy()
        del other.states[at]
        yield "a state less", other
        other = table.copy()
        other.states[at] = other.states[at][:-1] + f"{int(other.states[at][-1], 16) ^ 2:x}"
        yield "a state with another flag", other
    if "costs" in table.head:
        for at in range(28):
            for step in (-1, 1):
                costs = list(table.head["costs"])
                costs[at] += step
                if 1 <= costs[at] <= 64:
                    yield "a cost off by one", but(costs=costs)
        other = table.copy()
        other.version = 3
        del other.head["costs"]
        yield "no costs", other
    else:
        other = table.copy()
        other.version = 4
        other.head.setdefault("scratch", [0])
        other.head = {word: other.head[word] for word in ("regs", "left", "seed", "budget", "pool", "scratch")} | {"costs": [1] * 27 + [2]}
        yield "costs where there were none", other


def forged_families(rng, table, others, judge, count):
    """Changes of the families of a table of one entry, some with proofs of other tables."""
    for at, family in enumerate(table.families):

        def but(**parts):
            other = table.copy()
            other.families[at].update(parts)
            return other

        entry, number, low, high = family["numbers"]
        if high < 255:
            yield "a family one value too wide", but(numbers=[entry, number, low, high + 1])
        if low > 0:
            yield "a family one value too wide", but(numbers=[entry, number, low - 1, high])
        yield "a family of each byte", but(numbers=[entry, number, 0, 255])
        yield "a family of another number", but(numbers=[entry, rng.choice(table.head["pool"]), low, high])
        yield "a family without its number", but(numbers=[entry, number, number + 1, max(high, number + 1)])
        yield "a family of no entry", but(numbers=[entry + 1, number, low, high])
        yield "a family with its entry's proof", but(proof=table.entries[0]["proof"])
        for other in rng.sample(others, min(3, len(others))):
            yield "another family's proof", but(proof=other["proof"])
        most = min(len(tables.registers_of(table.entries[0]["left"])) + table.one("scratch"), 4)
        formula = judge.family(tuple(table.entries[0]["left"]), tuple(table.entries[0]["right"]), tuple(family["numbers"]), tuple(table.entries[0]["mask"]), most)
        for what, lines in changed_proofs(rng, family["proof"], formula.clauses, count):
            yield f"family's proof: {what}", but(proof=lines)


# ---- sides that differ in few states ----


def near_pairs(most):
    """Pairs of sides with a mask that no seeded state and none of 100 random ones distinguishes, but one with an edge value does: some of each kind."""
    chance = random.Random(3)
    for k, pool, masks in ((1, [1, 255], ("r0", "r0 n z", "r0 c", "r0 n z c", "n", "z", "c", "v", "n z c v", "z c", "r0 v")), (2, [0], ("r0", "r0 r1 z", "z", "c", "v", "z c", "n z"))):
        instrs = tables.alphabet(k, pool)
        usual = tables.seeded(42) + [([chance.getrandbits(32) for _ in range(4)], chance.getrandbits(4)) for _ in range(100)]
        edges = [([*words, 0, 0][:4], n) for words in itertools.product(EDGES, repeat=k) for n in (0, 15)]
        sides = [[]] + [[instr] for instr in instrs] + [[one, two] for one in instrs for two in instrs if k == 1]
        sides = [side for side in sides if tables.registers_of(side) == list(range(len(tables.registers_of(side))))]
        ends = [([tables.packed(tables.run(side, state)) for state in usual], [tables.packed(tables.run(side, state)) for state in edges]) for side in sides]
        for mask in masks:
            bits, groups = tables.mask_bits(mask.split()), collections.defaultdict(list)
            for side, (often, rarely) in zip(sides, ends):
                groups[tuple(end & bits for end in often)].append((side, [end & bits for end in rarely]))
            pairs = [(one, other) for group in groups.values() for one in group for other in group if one[1] != other[1] and one[0] and len(other[0]) <= len(one[0])]
            chance.shuffle(pairs)
            for (left, one), (right, other) in pairs[:most]:
                named = len(tables.registers_of(left))
                if all(r < named for r in tables.registers_of(right)) and not any(f"r{n}" in mask for n in range(named, 4)):
                    yield left, right, mask.split(), k, pool, next(state for state, x, y in zip(edges, one, other) if x != y)


def solved_but_for(b, words, k, room):
    """Lines of a proof that a formula has no model except with these words in the registers, without the clause that says so; None if it has others."""
    extra = [-(32 * r + bit + 1) if words[r] >> bit & 1 else 32 * r + bit + 1 for r in range(k) for bit in range(32)]
    cnf, drat = room / "near.cnf", room / "near.drat"
    cnf.write_text(f"p cnf {b.variables} {len(b.clauses) + 1}\n" + "".join(" ".join(map(str, [*clause, 0])) + "\n" for clause in [*b.clauses, extra]))
    done = subprocess.run(["cadical", "--plain", "--no-binary", "-q", cnf, drat], capture_output=True, text=True)
    if done.returncode != 20:
        return None
    more = len(b.clauses) + 1
    lines = []
    for line in lrat_lines.lines([*b.clauses, extra], lrat_lines.read_drat(drat)):
        if len(line) == 2:
            lines.append((line[0], [it for it in line[1] if it != more]))
        else:
            lines.append((line[0], line[1], [it for it in line[2] if it != more]))
    return lines


def near_tables(room, most):
    """Tables of one false entry whose sides differ in few states: a description, and the table."""
    head = "peep 2\nregs {}\nleft {}\nseed 42\nbudget 20000\npool {}\nscratch 0\n"
    states = "".join(tables.state_line(state) + "\n" for state in tables.seeded(42))
    for left, right, mask, k, pool, state in near_pairs(most):
        named = len(tables.registers_of(left))
        text = head.format(k, len(left), " ".join(map(str, pool))) + states + "entry\n" + "".join(f"left {it}\n" for it in left) + "".join(f"right {it}\n" for it in right)
        table = Table(text + " ".join(["mask", *mask]) + "\nproof\nend\n")
        b = tables.formula(left, right, mask, named)
        lines = solved_but_for(b, state[0], named, room) if shutil.which("cadical") else None
        what = "sides that differ in few states" if lines is None else "sides that differ in one word"
        if lines is not None:
            other = table.copy()
            other.entries[0]["proof"] = lines
            yield f"{what}, the proof for all others", other
            other = table.copy()
            other.entries[0]["proof"] = [line for line in lines if len(line) == 3 and line[1]] + [(lines[-1][0], [], list(range(1, len(b.clauses) + 1)))]
            yield f"{what}, each clause as a hint", other
        yield f"{what}, no line", table
        for what_else, proof in changed_proofs(random.Random(1), [], b.clauses, 1):
            other = table.copy()
            other.entries[0]["proof"] = proof
            yield f"{what}, {what_else}", other


# ---- the tables to start from ----


def peep(*words):
    ran = subprocess.run([PEEP, *map(str, words)], capture_output=True, text=True)
    return ran.returncode, ran.stdout.strip()


def peep_text(room, text):
    """What `peep audit` prints for a text."""
    with tempfile.NamedTemporaryFile("w", dir=room, suffix=".peep") as file:
        file.write(text)
        file.flush()
        return peep("audit", file.name)


def learnt(room, listing):
    """The tables learnt from a listing, with the families that could be made of them."""
    made = []
    for name, options in SETTINGS.items():
        path = room / f"{listing.stem}.{name}.peep"
        if peep("learn", listing, path, *options)[0] == 0:
            raise_all(path)
            made.append(path)
    return made


def by_hand(room):
    """Tables of the sides above, in version 3, and with costs in version 4."""
    for version in (3, 4):
        head = f"peep {version}\nregs 2\nleft 2\nseed 42\nbudget 20000\npool 0 24\nscratch 0\n" + ("costs" + " 1" * 28 + "\n") * (version == 4)
        entries = (["entry", *(f"left {it}" for it in left), *(f"right {it}" for it in right), f"mask {mask}", "proof"] for left, right, mask in RAISED)
        path = room / f"raised-{version}.peep"
        path.write_text(head + "".join(tables.state_line(state) + "\n" for state in tables.seeded(42)) + "".join("\n".join([*entry, ""]) for entry in entries) + "end\n")
        raise_all(path)
        yield path


def with_open_names(room):
    """Tables whose budgets are too small, so that numbers are left open with their logs, in version 2, and with costs in version 4."""
    listing, costs = room / "open.s", room / "open.costs"
    listing.write_text("\teors r0, r1\n\teors r0, r1\n\tbx lr\n")
    costs.write_text("costs 1\nmuls 3\neors 4\nsubs 3\nadds 3\n")
    for name, options in (("1", ["--budget", "1"]), ("3", ["--budget", "3"]), ("costs", ["--budget", "1", "--costs", str(costs)])):
        path = room / f"open-{name}.peep"
        status, said = peep("learn", listing, path, "--left", "2", "--regs", "2", "--pool", "255", *options)
        assert status == 0, said
        yield path


def raise_all(path):
    """Generalises the entries of a table, each number to the first range that holds."""
    table = Table(path.read_text())
    for at, entry in enumerate(table.entries, 1):
        for number in table.head["pool"]:
            if any(is_hole(text, number) for text in entry["left"]) and entry["right"] != entry["left"]:
                for low, high in ((0, 255), (number, 255), (0, number), (number, number)):
                    if peep("generalise", path, at, number, low, high, path)[0] == 0:
                        break


def forgeries(judge, path, count):
    """The changed copies of a table: a description of each, and the table."""
    rng = random.Random(path.name)
    whole = Table(path.read_text())
    yield "nothing changed", whole
    shortest = lambda at: (not whole.entries[at]["proof"], whole.entries[at]["right"] == whole.entries[at]["left"], not whole.entries[at]["opens"])
    raised = sorted({family["numbers"][0] - 1 for family in whole.families})
    for at in dict.fromkeys(raised[:count] + sorted(range(len(whole.entries)), key=shortest)[:count]):
        table, entry = whole.of(at), whole.entries[at]
        yield "nothing changed", table
        others = [other for other in whole.entries if other is not entry]
        yield from forged_entries(rng, table, entry, others, 1 if len(entry["proof"]) > 300 else 4)
        yield from forged_heads(rng, table)
        yield from forged_families(rng, table, whole.families, judge, 2)


def cause(said):
    """What a line says, without its numbers except the kind."""
    words = said.split()
    if words[0] == "entries":
        return "accepted"
    return " ".join(words[1:2] + ([words[3]] if words[1] in ("entry", "family") else []))


def tried(path, room, count):
    """Tries the changed copies of a table, or without one the sides that differ in few states. Returns the causes by change, and the wrong answers."""
    judge, counts, said_wrong, seen = Judge(), collections.defaultdict(collections.Counter), [], set()
    for what, table in forgeries(judge, path, count) if path else near_tables(room, 6 * count):
        text = table.text()
        if text in seen:
            continue
        seen.add(text)
        status, said = peep_text(room, text)
        due, is_many = judge.due(table)
        is_due = said == due or is_many and re.match(r"refused entry \d+ [45] ", said)
        if not is_due or status != said.startswith("refused"):
            kept = room / f"wrong-{path.stem if path else 'near'}-{len(said_wrong)}.txt"
            kept.write_text(text)
            said_wrong.append(f"{what}: {said} where {due} is due, {kept.name}")
            print(said_wrong[-1], flush=True)
        counts[what][cause(said)] += 1
    return {what: dict(numbers) for what, numbers in counts.items()}, said_wrong


def main():
    folder, room, count = pathlib.Path(sys.argv[1]), pathlib.Path(sys.argv[2]), int(sys.argv[3]) if len(sys.argv) > 3 else 3
    room.mkdir(parents=True, exist_ok=True)
    paths = [TOP / "examples" / name for name in EXAMPLES] + [TOP / "tables" / name for name in SHIPPED]
    counts, wrong = collections.defaultdict(collections.Counter), []
    paths += [*by_hand(room), *with_open_names(room)]
    with ProcessPoolExecutor(JOBS) as pool:
        near = pool.submit(tried, None, room, count)
        for made in pool.map(learnt, itertools.repeat(room), sorted(folder.glob("*.s"))):
            paths += made
        for causes, said in [*pool.map(tried, paths, itertools.repeat(room), itertools.repeat(count)), near.result()]:
            wrong += said
            for what, numbers in causes.items():
                counts[what].update(numbers)
    for what in sorted(counts):
        print(f"{what}: " + ", ".join(f"{number} {name}" for name, number in counts[what].most_common()))
    sums = sum(counts.values(), collections.Counter())
    by_proof = sum(sums[name] for name in ("entry 2", "entry 3", "family 2", "family 3"))
    print(f"{len(paths)} tables, {sum(sums.values())} made of them: " + ", ".join(f"{number} {name}" for name, number in sums.most_common()))
    print(f"{by_proof} refused by nothing but a proof's check; {len(wrong)} answered otherwise than due, {sum(': entries' in line for line in wrong)} of them accepted")
    sys.exit(bool(wrong))


if __name__ == "__main__":
    main()
