#!/usr/bin/env python3
"""Generalises the shortening entries of tables to the widest families that hold, and checks these by independent means.

Usage: bench/families.py FOLDER ROOM [LEARN_OPTION ..]

FOLDER has listings, or tables, whose names end with .peep. A table is learnt from each listing (ROOM, outside the repository, keeps them). Each entry that
saves instructions and has an 8-bit number of the pool goes to `generalise`, first with the range of all bytes, then narrowed towards the entry's own number,
past each refused value. Printed are the numbers of entries and families, their widths, and how many more windows they replace. CaDiCaL has to refute the
formula that `export` writes of each family. Where a range is refused for a value, a model that CaDiCaL finds has to be a state and a value that distinguish the
two sides when instructions are executed here. Both sides have to leave the same for each value of a family on 1,000 states.
"""

import os
import pathlib
import random
import subprocess
import sys
from concurrent.futures import ThreadPoolExecutor

TOP = pathlib.Path(__file__).resolve().parent.parent
PEEP = pathlib.Path(os.environ.get("PEEP", TOP / "crates/peep/out/peep"))
FULL = 0xFFFFFFFF
BYTES = ("movs", "cmp", "adds", "subs")
ITEMS = ("r0", "r1", "r2", "r3", "n", "z", "c", "v")


# ---- instructions ----


def signed(word):
    return word - (word >> 31 << 32)


def sum_of(x, y, carry):
    """A sum with its flags C and V."""
    total = x + y + carry
    word = total & FULL
    return word, total >> 32, int(signed(word) != signed(x) + signed(y) + carry)


def shifted(name, x, amount, carry):
    """A word shifted by an amount, which isn't masked, and the carry."""
    if amount == 0:
        return x, carry
    if name == "lsls":
        return (x << amount & FULL, x >> 32 - amount & 1) if amount <= 32 else (0, 0)
    if name == "lsrs":
        return (x >> amount, x >> amount - 1 & 1) if amount <= 32 else (0, 0)
    if name == "asrs":
        amount = min(amount, 32)
        return signed(x) >> amount & FULL, signed(x) >> amount - 1 & 1
    turn = amount % 32
    word = (x >> turn | x << 32 - turn) & FULL
    return word, word >> 31


def reversed_bytes(x):
    return int.from_bytes(x.to_bytes(4, "big"), "little")


PLAIN = {
    "mov": lambda x: x,
    "sxth": lambda x: (x & 0xFFFF ^ 0x8000) - 0x8000 & FULL,
    "sxtb": lambda x: (x & 0xFF ^ 0x80) - 0x80 & FULL,
    "uxth": lambda x: x & 0xFFFF,
    "uxtb": lambda x: x & 0xFF,
    "rev": reversed_bytes,
    "rev16": lambda x: (x & 0x00FF00FF) << 8 | x >> 8 & 0x00FF00FF,
    "revsh": lambda x: (((x & 0xFF) << 8 | x >> 8 & 0xFF) ^ 0x8000) - 0x8000 & FULL,
}
LOGIC = {
    "ands": lambda x, y: x & y,
    "tst": lambda x, y: x & y,
    "eors": lambda x, y: x ^ y,
    "orrs": lambda x, y: x | y,
    "bics": lambda x, y: x & ~y & FULL,
    "mvns": lambda x, y: ~y & FULL,
    "movs": lambda x, y: y,
    "muls": lambda x, y: x * y & FULL,
}


def carried_out(side, state):
    """The state that instructions leave, by the names of its items."""
    state = dict(state)
    for name, operands in side:
        value = lambda at: operands[at] if isinstance(operands[at], int) else state[operands[at]]
        target = operands[0]
        if name in PLAIN:
            state[target] = PLAIN[name](value(1))
            continue
        if name == "add":
            state[target] = value(0) + value(1) & FULL
            continue
        word, c, v = None, state["c"], state["v"]
        if name in LOGIC:
            word = LOGIC[name](value(0), value(1))
        elif name in ("lsls", "lsrs", "asrs", "rors"):
            x, amount = (value(1), value(2)) if len(operands) == 3 else (value(0), value(1) & 0xFF)
            word, c = shifted(name, x, amount, c)
        else:
            x, y = (value(1), value(2)) if len(operands) == 3 else (value(0), value(1))
            word, c, v = {
                "adds": lambda: sum_of(x, y, 0),
                "cmn": lambda: sum_of(x, y, 0),
                "adcs": lambda: sum_of(x, y, c),
                "subs": lambda: sum_of(x, ~y & FULL, 1),
                "cmp": lambda: sum_of(x, ~y & FULL, 1),
                "sbcs": lambda: sum_of(x, ~y & FULL, c),
                "rsbs": lambda: sum_of(0, ~x & FULL, 1),
            }[name]()
        if name not in ("tst", "cmp", "cmn"):
            state[target] = word
        state.update(n=word >> 31, z=int(word == 0), c=c, v=v)
    return state


def instruction(text):
    name, rest = text.split(" ", 1)
    return name, [int(word[1:]) if word.startswith("#") else word for word in rest.split(", ")]


def instance(side, number, value):
    """A side with a value in place of a number, where it is an 8-bit operand."""
    is_hole = lambda name, operands: name in BYTES and len(operands) == 2 and operands[1] == number
    return [(name, [operands[0], value] if is_hole(name, operands) else operands) for name, operands in side]


def tells(entry, number, value, state):
    left, right = (carried_out(instance(side, number, value), state) for side in (entry["left"], entry["right"]))
    return any(left[item] != right[item] for item in entry["mask"])


def states(count):
    chance = random.Random(7)
    edges = (0, 1, 0x7FFFFFFF, 0x80000000, FULL, 255, 256)
    for _ in range(count):
        state = {f"r{n}": chance.choice(edges) if chance.random() < 0.3 else chance.getrandbits(32) for n in range(4)}
        yield state | {flag: chance.getrandbits(1) for flag in "nzcv"}


STATES = list(states(1000))


# ---- tables ----


def entries_of(text):
    entries = []
    for line in text.split("\n"):
        word, _, rest = line.partition(" ")
        if line == "entry":
            entries.append({"left": [], "right": [], "mask": []})
        elif word in ("left", "right") and entries:
            entries[-1][word].append(instruction(rest))
        elif word == "mask":
            entries[-1]["mask"] = rest.split()
    return entries


def holes(entry, pool):
    """The numbers of the pool that are 8-bit operands in the left side."""
    return sorted({operands[1] for name, operands in entry["left"] if name in BYTES and len(operands) == 2 and operands[1] in pool})


def registers(entry, scratch):
    named = {word for _, operands in entry["left"] for word in operands if isinstance(word, str)}
    return min(len(named) + scratch, 4)


def peep(*words):
    ran = subprocess.run([PEEP, *map(str, words)], capture_output=True, text=True)
    return ran.returncode, ran.stdout.split()


def solved(cnf):
    """The literals of a model of a formula, or None if it has none."""
    ran = subprocess.run(["cadical", "-q", cnf], capture_output=True, text=True)
    if ran.returncode == 20:
        return None
    return {int(word) for line in ran.stdout.split("\n") if line.startswith("v ") for word in line.split()[1:]}


def judged_model(room, table, entry, at, number, low, high, scratch):
    """Whether a model of a range's formula distinguishes the sides of an entry. Entries are counted from 1."""
    text = table.read_text().removesuffix("end\n")
    text = text.replace(text.split("\n")[0], "peep 3", 1) + f"family {at} {number} {low} {high}\nproof\nend\n"
    tried, cnf, lrat = (room / f"{table.name}.{name}" for name in ("tried", "cnf", "lrat"))
    tried.write_text(text)
    status, said = peep("export", tried, len(entries_of(text)) + text.count("\nfamily "), cnf, lrat)
    assert status == 0, said
    model = solved(cnf)
    assert model is not None, (table, at, number, low, high)
    k = registers(entry, scratch)
    bits = lambda first, count: sum(1 << n for n in range(count) if first + n in model)
    state = {f"r{n}": bits(32 * n + 1, 32) if n < k else 0 for n in range(4)}
    state |= {flag: bits(32 * k + 1 + n, 1) for n, flag in enumerate("nzcv")}
    value = bits(32 * k + 5, 8)
    assert low <= value <= high and tells(entry, number, value, state), (table, at, number, value, state)


def raised(room, listing, options):
    """Generalises the entries of a listing's table. Returns the results as numbers to be added up, and the widths of the families."""
    table, wider = room / f"{listing.name}.peep", room / f"{listing.name}.wide.peep"
    is_table = listing.suffix == ".peep"
    status, said = peep("upgrade", listing, table) if is_table else peep("learn", listing, table, *options)
    assert status == 0, (listing, said)
    text = table.read_text()
    entries, pool = entries_of(text), [int(word) for word in next(line for line in text.split("\n") if line.startswith("pool")).split()[1:]]
    scratch = int(next((line.split()[1] for line in text.split("\n") if line.startswith("scratch ")), 0))
    wider.write_text(text)
    found, refused, spent = [], 0, 0
    candidates = [(at, entry, n) for at, entry in enumerate(entries, 1) if len(entry["right"]) < len(entry["left"]) for n in holes(entry, pool)]
    for at, entry, number in candidates:
        low, high = 0, 255
        while True:
            status, said = peep("generalise", wider, at, number, low, high, wider)
            if status == 0:
                found.append((at, entry, number, low, high))
                break
            assert status == 1 and said[:2] == ["refused", "symbol"], said
            if said[2] != "2":
                spent += 1
                break
            refused += 1
            judged_model(room, table, entry, at, number, low, high, scratch)
            value = int(said[3])
            assert value != number
            low, high = (value + 1, high) if value < number else (low, value - 1)
    for n, (at, entry, number, low, high) in enumerate(found, 1):
        cnf, lrat = (room / f"{listing.name}.{name}" for name in ("cnf", "lrat"))
        status, said = peep("export", wider, len(entries) + n, cnf, lrat)
        assert status == 0 and solved(cnf) is None, (listing, n, said)
        for state in STATES:
            assert not any(tells(entry, number, value, state) for value in range(low, high + 1))
    replaced = [0, 0] if is_table else []
    for name in () if is_table else (table, wider):
        status, said = peep("rewrite", name, listing, room / f"{listing.name}.out", "-")
        assert status == 0, (name, said)
        replaced.append(int(said[1]))
    shortening = sum(len(entry["right"]) < len(entry["left"]) for entry in entries)
    return [len(entries), shortening, len(candidates), len(found), refused, spent, *replaced], [high - low + 1 for *_, low, high in found]


def main():
    folder, room, options = pathlib.Path(sys.argv[1]), pathlib.Path(sys.argv[2]), sys.argv[3:]
    room.mkdir(parents=True, exist_ok=True)
    with ThreadPoolExecutor(int(os.environ.get("JOBS", "2"))) as pool:
        results = list(pool.map(lambda listing: raised(room, listing, options), sorted(folder.iterdir())))
    sums = [sum(column) for column in zip(*(numbers for numbers, _ in results))]
    widths = sorted(width for _, all in results for width in all)
    print("entries {}, {} leave fewer instructions; {} numbers of them stand in 8 bits: {} families, {} ranges refused for a value, {} spent".format(*sums[:6]))
    print(f"widths: {widths}; all bytes: {widths.count(256)}, one value: {widths.count(1)}")
    print("windows replaced by the entries {}, with the families {}".format(*sums[6:]))


if __name__ == "__main__":
    main()
