#!/usr/bin/env python3
"""Makes random tables with costs and families, and checks them by the plain programs of this folder and by Python code.

Usage: bench/families_by_costs.py ROOM [TABLES [SEED]]    (ROOM, outside the repository, keeps what differs; PEEP names another program)

For each table a cost file, a listing and options are made. `peep learn --costs` has to write what the plain learner writes, and read_tables.py has to accept
one in five of the narrow tables. `peep generalise` is applied to numbers of its entries, each with the widest range that holds; a value that it refuses has to
distinguish the sides. Both sides of each entry and family have to leave the same on states, for each value, by instructions as families.py executes them. The
right side may neither cost more nor have more instructions; no cheaper sequence that isn't listed as open may leave the same on all states. `peep audit` and
the plain auditor have to accept the table and damaged copies or refuse them with the same line; `peep rewrite` and the plain rewriter have to write the same
for another listing, with lower costs and no more instructions. The proof that `export` writes of each family has to refute its formula.
"""

import collections
import itertools
import os
import pathlib
import random
import subprocess
import sys

from families import STATES, carried_out, entries_of, holes, instance, instruction, registers, tells
from lrat_lines import read_dimacs
from read_tables import MNEMONICS, alphabet, audit, is_proof, proof_line

TOP = pathlib.Path(__file__).resolve().parent.parent
PEEP = pathlib.Path(os.environ.get("PEEP", TOP / "crates/peep/out/peep"))
PAIRS = """movs A, #N; adds B, B, A|movs A, #N; subs B, B, A|movs A, #N; cmp B, A|movs A, #N; muls B, A, B|movs A, #N; movs A, #M|adds A, #N; adds A, #M|adds A, #N; subs A, #N
adds A, #N; cmp A, #N|movs A, #N; mov B, A|mov B, A; adds B, #N|movs A, #N; ands B, A|movs A, #N; eors B, A|movs A, #N; lsls B, A|subs A, #N; cmp A, #M|muls A, B, A; movs B, #N
movs A, #N; movs B, #N|movs A, #N; cmn B, A|movs B, A; cmp B, #N|adds B, A, A; movs A, #N|movs A, #N; bics B, A|mvns A, A; adds A, #N|cmp A, #N; movs A, #N"""
PAIRS = [pair.split("; ") for line in PAIRS.split("\n") for pair in line.split("|")]
FACTS = collections.Counter()
Clauses = collections.namedtuple("Clauses", "clauses")


def costs_of(chance):
    """A cost for each mnemonic."""
    kind = chance.randrange(4)
    most = chance.choice([2, 32, 64])
    draw = [lambda name: most if name == "muls" else 1, lambda _: chance.randint(1, 3), lambda _: chance.randint(1, 64), lambda _: chance.choice([1, 1, 1, most])][kind]
    return {name: draw(name) for name in MNEMONICS}


def cost_text(chance, costs):
    said = [name for name in MNEMONICS if costs[name] > 1 or chance.random() < 0.5]
    chance.shuffle(said)
    return "".join(f"{line}\n" for line in ["costs 1", *(f"{name} {costs[name]}" for name in said)])


def listing_of(chance, numbers, count):
    """Pairs of instructions, most of them followed by one that overwrites a register or the flags, separated by labels and stores."""
    lines = ["f:"]
    for n in range(count):
        a, b = chance.sample(range(6), 2)
        names = {"A": f"r{a}", "B": f"r{b}", "#N": f"#{chance.choice(numbers)}", "#M": f"#{chance.choice(numbers)}"}
        side = chance.choice(PAIRS)
        for name, word in names.items():
            side = [line.replace(name, word) for line in side]
        lines += [f"\t{line}" for line in side]
        if chance.random() < 0.5:
            lines[-2] = f"l{n}: " + lines[-2].strip()
        lines += [f"\tmovs r{a}, #0"] * (chance.random() < 0.7) + ["\tcmp r6, r7"] * (chance.random() < 0.7) + ["\tstr r6, [r7]"] * (chance.random() < 0.5)
    return "".join(f"{line}\n" for line in [*lines, "\tbx lr"])


def run(*words, given=None):
    ran = subprocess.run([str(word) for word in words], input=given, capture_output=True, text=True)
    return ran.returncode, ran.stdout, ran.stderr


def built(room, name):
    program = room / name
    subprocess.run(["rustc", "-O", "--edition", "2021", TOP / "bench" / name / "plain.rs", "-o", program], check=True, capture_output=True)
    return program


def raised(chance, table, costs, scratch):
    """Generalises numbers of a table's entries, and returns which."""
    text = table.read_text()
    entries, pool = entries_of(text), [int(word) for line in text.split("\n") if line.startswith("pool") for word in line.split()[1:]]
    wanted = [(at, entry, number) for at, entry in enumerate(entries, 1) for number in holes(entry, pool)]
    chance.shuffle(wanted)
    wanted.sort(key=lambda item: item[1]["left"] == item[1]["right"])
    found = []
    for at, entry, number in wanted[:10]:
        low, high = (0, 255) if chance.random() < 0.6 else (chance.randint(0, number), chance.randint(number, 255))
        while True:
            before = table.read_text()
            status, said, _ = run(PEEP, "generalise", table, at, number, low, high, table)
            if status == 0:
                assert table.read_text().startswith(before.removesuffix("end\n") + f"family {at} {number} {low} {high}\nproof\n"), said
                found.append((at, entry, number, low, high))
                FACTS["families"] += 1
                FACTS["families for all bytes"] += (low, high) == (0, 255)
                FACTS["families of equal length"] += len(entry["left"]) == len(entry["right"]) and entry["left"] != entry["right"]
                break
            words = said.split()
            assert status == 1 and words[:2] == ["refused", "symbol"] and words[2] != "1" and table.read_text() == before, said
            if words[2] == "3":
                FACTS["ranges spent"] += 1
                break
            FACTS["ranges refused"] += 1
            value = int(words[3])
            told = any(tells(entry, number, value, state) for state in STATES)
            FACTS["refused values that no state here tells"] += not told
            low, high = (value + 1, high) if value < number else (low, value - 1)
    return found


def listed(text):
    """The states that a table lists, in the form of STATES."""
    for line in text.split("\n"):
        if line.startswith("state "):
            *words, flags = (int(word, 16) for word in line.split()[1:])
            yield {f"r{n}": word for n, word in enumerate(words)} | {flag: flags >> bit & 1 for flag, bit in zip("nzcv", (3, 2, 1, 0))}


def judge_sides(table, costs, scratch, families):
    """Tries each entry and family on states, and that nothing cheaper is left out."""
    text = table.read_text()
    pool = [int(word) for line in text.split("\n") if line.startswith("pool") for word in line.split()[1:]]
    opens = []
    for line in text.split("\n"):
        if line == "entry":
            opens.append(set())
        elif line.startswith("open "):
            opens[-1].add(int(line.split()[1]))
    weight = lambda side: sum(costs[name] for name, _ in side)
    instrs = {k: [instruction(instr) for instr in alphabet(k, pool)] for k in range(1, 5)}
    states = [*listed(text), *STATES]
    for entry, named in zip(entries_of(text), opens):
        left, right, mask = entry["left"], entry["right"], entry["mask"]
        assert weight(right) <= weight(left) and len(right) <= len(left)
        FACTS["entries"] += 1
        FACTS["entries that lower the cost"] += weight(right) < weight(left)
        FACTS["of these of equal length"] += weight(right) < weight(left) and len(right) == len(left)
        ends = [carried_out(left, state) for state in states]
        differs = lambda side: any(carried_out(side, state)[item] != end[item] for state, end in zip(states, ends) for item in mask)
        assert not differs(right), entry
        over = instrs[registers(entry, scratch)]
        if len(over) ** len(left) > 40000 or FACTS["entries beside all cheaper sequences"] > 20 * FACTS["tables"]:
            continue
        FACTS["entries beside all cheaper sequences"] += 1
        number = 0
        for length in range(len(left) + 1):
            for side in itertools.product(over, repeat=length):
                assert weight(side) >= weight(right) or number in named or differs(side), (entry, side)
                number += 1
    for _, entry, number, low, high in families:
        for value in {low, high, number, *range(low, high + 1, 37)}:
            assert not any(tells(entry, number, value, state) for state in STATES[:200]), (entry, number, value)
            assert weight(instance(entry["right"], number, value)) <= weight(instance(entry["left"], number, value))


def damaged(chance, text):
    """The text with a line changed: a number or a letter of it, or the line deleted, doubled or put in place of another."""
    lines = text.split("\n")
    behind = [at for at, line in enumerate(lines) if line.startswith(("costs", "family", "left", "right", "mask", "scratch", "open")) or line[:1].isdigit() and chance.random() < 0.1]
    at, other = chance.choice(behind), chance.choice(behind)
    if chance.random() < 0.85:
        words = lines[at].split(" ")
        place = chance.randrange(len(words))
        number = words[place].strip("#,")
        words[place] = words[place].replace(number, str(max(int(number) + chance.choice([-1, 1, 7]), 0))) if number.isdigit() else chance.choice(words)
        lines[at] = " ".join(words)
    elif chance.random() < 0.5:
        lines[at] = lines[other]
    else:
        lines[at : at + 1] = [] if chance.random() < 0.5 else [lines[at]] * 2
    return "\n".join(lines)


def judge_audit(plain, table, text):
    table.write_text(text)
    _, said, _ = run(PEEP, "audit", table)
    _, also, _ = run(plain, given=text)
    is_same = said == also if "refused" in said + also else said.split()[:2] == also.split()
    assert is_same, (table, said, also)
    FACTS[("accepted" if "refused" not in said else " ".join(said.split()[:2])) + " by both auditors"] += 1


def judge_rewriting(plain, table, listing, out, costs):
    status, said, _ = run(PEEP, "rewrite", table, listing, out, "-")
    _, also, figures = run(plain, given=table.read_text() + listing.read_text())
    words, figures = said.split(), figures.split()
    assert status == 0 and out.read_text() == also and [words[1], words[3], words[4]] == figures[2:], (table, said, figures)
    instructions = lambda text: [line.partition(":")[2] or line for line in text.split("\n")]
    total = lambda text: sum(costs.get(line.split()[0], 0) for line in instructions(text) if line.split())
    before, after = total(listing.read_text()), total(out.read_text())
    assert after < before or words[1] == "0" and after == before, (table, before, after)
    assert int(words[4]) <= int(words[3])
    FACTS["windows replaced"] += int(words[1])
    FACTS["instructions taken away"] += int(words[3]) - int(words[4])
    assert run(PEEP, "rewrite", table, out, out, "-")[1].startswith("replaced 0\n")


def judge_exports(table, room, first, count):
    for number in range(first, first + count):
        cnf, lrat = room / "cnf", room / "lrat"
        status, said, _ = run(PEEP, "export", table, number, cnf, lrat)
        assert status == 0, said
        _, clauses = read_dimacs(cnf)
        assert is_proof(Clauses(clauses), [proof_line(line) for line in lrat.read_text().splitlines()]), (table, number)
        FACTS["exported formulas of families refuted"] += 1


def judge(chance, room, learner, auditor, rewriter):
    costs, scratch = costs_of(chance), chance.choice([0, 0, 1])
    numbers = sorted(chance.sample([0, 1, 2, 3, 4, 5, 7, 8, 16, 24, 31, 100, 128, 255], chance.randint(1, 3)))
    regs, left = chance.choice([(2, 2), (2, 2), (1, 2), (1, 3), (3, 2)]) if scratch == 0 else chance.choice([(1, 2), (2, 2)])
    cost_file, listing, other, table, out = (room / name for name in ("costs", "learnt.s", "other.s", "table.peep", "out.s"))
    cost_file.write_text(cost_text(chance, costs))
    listing.write_text(listing_of(chance, numbers, 8))
    other.write_text(listing_of(chance, [*numbers, *chance.sample(range(256), 4)], 60) if chance.random() < 0.5 else listing_of(chance, numbers, 60))
    options = ["--regs", regs, "--left", left, "--pool", ",".join(map(str, numbers)), "--budget", chance.choice([50, 300]), "--seed", chance.randrange(1 << 32), "--scratch", scratch]
    status, said, _ = run(PEEP, "learn", listing, table, "--costs", cost_file, *options)
    assert status == 0, said
    FACTS["tables"] += 1
    assert run(learner, given=table.read_text())[1] == table.read_text(), "the plain learner's table"
    if left == 2 and regs + scratch < 3 and chance.random() < 0.2:
        audit(table.read_text())
        FACTS["tables accepted by read_tables.py"] += 1
    families = raised(chance, table, costs, scratch)
    text = table.read_text()
    judge_sides(table, costs, scratch, families)
    judge_audit(auditor, table, text)
    judge_rewriting(rewriter, table, other, out, costs)
    judge_exports(table, room, len(entries_of(text)) + 1, len(families))
    for _ in range(10):
        judge_audit(auditor, room / "damaged.peep", damaged(chance, text))


def main():
    room, count, seed = pathlib.Path(sys.argv[1]), *(int(word) for word in [*sys.argv[2:], "300", "1"][:2])
    room.mkdir(parents=True, exist_ok=True)
    programs = [built(room, name) for name in ("learner", "audit", "rewriting")]
    for n in range(count):
        judge(random.Random(f"{seed} {n}"), room, *programs)
    for name, number in FACTS.items():
        print(f"{name}: {number}")


if __name__ == "__main__":
    main()
