#!/usr/bin/env python3
"""Writes a table followed by a listing of some hostile shape, of about N lines. Use: bench/growth.py SHAPE N > input

With `--table` only the table, and with `--listing` only the listing. Without arguments: the shapes, each with an N that may be doubled twice. For each shape
the time of some rewriter grew with the square of the lines or faster, or could have."""
import os
import sys

TOP = os.path.join(os.path.dirname(os.path.abspath(__file__)), "..")
HEADER = ["peep 1", "regs 2", "left 2", "seed 42", "budget 1", "pool 1 2 3 24 255"]
MOST_LINES = 262_144
MOV = "entry\nleft mov r0, r0\nmask r0 n z c v\nproof\n"
DOUBLE = "entry\nleft lsls r0, r0, #1\nright adds r0, r0, r0\nmask r0 n z\nproof\n"
ADCS = "entry\nleft adcs r0, r1\nleft movs r0, r0\nright adcs r0, r1\nmask r0 n z\nproof\n"


def example(name):
    """The entries of a table of examples/."""
    with open(os.path.join(TOP, "examples", name)) as file:
        text = file.read()
    return text[text.index("entry\n") : text.rindex("end\n")]


def states():
    """The states of the seed, from an example: an audit refuses a table that lacks one of them."""
    with open(os.path.join(TOP, "examples", "rules.peep")) as file:
        return [line.rstrip("\n") for line in file if line.startswith("state")]


def table(entries):
    return "\n".join([*HEADER, *states()]) + "\n" + entries + "end\n"


def table_by_costs(entries):
    """A table in which left shifts cost 2, and all else costs 1."""
    costs = " ".join("2" if place == 4 else "1" for place in range(28))
    return "\n".join(["peep 4", *HEADER[1:], "scratch 0", f"costs {costs}", *states()]) + "\n" + entries + "end\n"


def rules():
    """The entries of both example tables."""
    return table(example("rules.peep") + example("moves.peep"))


# ---- control flow ----


def groups_backward(n):
    """Windows, each in a group that branches to the group before: what is read at one place is live in all later groups."""
    yield "a0: bx lr"
    for i in range(1, n // 3):
        yield from (f"a{i}: mov r1, r1", "movs r2, #1", f"b a{i - 1}")


def groups_forward(n):
    """The same with branches to the next group."""
    for i in range(n // 3):
        yield from (f"a{i}: mov r1, r1", "movs r2, #1", f"b a{i + 1}")
    yield f"a{n // 3}: bx lr"


def chain(n):
    """Branches, each to the one before, and no window."""
    yield "a0: bx lr"
    for i in range(1, n):
        yield f"a{i}: b a{i - 1}"


def calls(n):
    """A window after each call of one function."""
    for _ in range(n // 2):
        yield from ("bl f", "mov r2, r2")
    yield from ("bx lr", "f: adds r2, #1", "bx lr")


def pops(n):
    """A window after each return that pops a register."""
    for i in range(n // 3):
        yield from (f"f{i}: mov r2, r2", f"adds r{4 + i % 4}, #1", f"pop {{r{4 + i % 4}, pc}}")


def blx(n):
    """Windows between calls by a register, at return points."""
    for _ in range(n // 3):
        yield from ("blx r4", "mov r5, r5", "movs r2, #1")
    yield "bx lr"


def loop_of_calls(n):
    """A loop by `bl` with windows and calls in it, whose register is read only at its head."""
    yield "a: adds r6, #1"
    for i in range(n // 4):
        yield from ("mov r6, r6", "adds r0, #1", f"bl b{i}", f"b{i}: adds r1, #1")
    yield "bl a"


def read_far_back(n):
    """One loop by `bl` with windows, and a read only at its head, which is far from all of them."""
    yield "a: str r6, [r0]"
    for _ in range(n // 2):
        yield from ("mov r6, r6", "adds r1, #1")
    yield "bl a"


def branches_over(n):
    """Windows that a branch may skip."""
    for i in range(n // 3):
        yield from (f"a{i}: adds r0, #1", f"beq a{i + 1}", "mov r1, r1")
    yield from (f"a{n // 3}: adds r1, #1", "bx lr")


def idle_and_windows(n):
    """Idle lines, then as many windows, and a read."""
    yield from ["adds r0, #1"] * (n // 2)
    yield from ["mov r7, r7"] * (n // 2)
    yield from ("str r7, [r0]", "bx lr")


def moves(n):
    """Idle lines, then as many windows in straight code that alternately read and write."""
    yield from ["adds r0, #1"] * (n // 2)
    for i in range(n // 4):
        yield from (f"mov r{i % 7 + 1}, r0", f"mov r{i % 7 + 1}, r{i % 7 + 1}")
    yield "bx lr"


def apart(n):
    """n/2 idle lines, then windows 70 lines apart whose register is read only after all of them."""
    yield from ["adds r0, #1"] * (n // 2)
    for _ in range(n // 142):
        yield "mov r7, r7"
        yield from ["adds r0, #1"] * 70
    yield from ("str r7, [r0]", "bx lr")


def literals(n):
    """Windows 80 lines before the next read of their register, a literal load in each part, and the literals after an alignment."""
    for i in range(n // 100):
        yield from (f"f{i}: ldr r3, l{i}", "mov r6, r6")
        yield from ["adds r0, #1"] * 92
        yield from ("str r6, [r3]", "bx lr", ".align 2", f"l{i}: .word {i}")


def collapse_first(n):
    """Moves to and fro, of which the first two are always the next window."""
    for i in range(n // 2):
        yield from ("mov r1, r0", "mov r0, r1")
    yield from ("str r1, [r0]", "bx lr")


def collapse_last(n):
    """Moves to and fro whose values nothing reads, so that the last one is always the next window."""
    for i in range(n // 2):
        yield from ("mov r2, r1", "mov r1, r2")
    yield "z: b z"


def ends(n):
    """Windows at both ends of one listing, with all lines of code between them."""
    yield from ["mov r1, r1", "adds r1, #1"] * (n // 6)
    yield from ["adds r0, #1"] * (n // 3)
    yield from ["mov r1, r1", "adds r1, #1"] * (n // 6)
    yield "bx lr"


def alternating(n):
    """Moves whose values only the next one reads, alternately at both ends of the listing: each replacement allows one at the other end."""
    count = n // 4
    for half in (range(0, 2 * count, 2), range(2 * count - 1, 0, -2)):
        for i in half:
            yield from (f"g{i}: mov r{1 + i % 2}, r{2 - i % 2}", f"bl g{i + 1}")
    yield f"g{2 * count}: b g{2 * count}"


def return_points(n):
    """`adcs` windows at return points: the carry is live at each return only because of the others."""
    for _ in range(n // 5):
        yield from ("blx r4", "adcs r2, r3", "movs r2, r2", "movs r3, #0", "cmp r2, #1")
    yield "bx lr"


def labels(n):
    """2,000 labels at one place after windows, and a branch to each."""
    count = min(2000, n // 4)
    for i in range(count):
        yield f"bl a{i}"
    for _ in range((n - 2 * count) // 2):
        yield from ("mov r1, r1", "adds r1, #1")
    for i in range(count):
        yield f"a{i}:"
    yield "bx lr"


# ---- layouts ----


def aligned(n):
    """Windows before alignments, each of which absorbs what is removed, and a branch in each part."""
    for i in range(n // 5):
        yield from (f"a{i}: mov r1, r1", f"beq a{i}", "adds r1, #1", ".align 3", f"b{i}: adds r0, #1")
    yield "bx lr"


def moves_on(n):
    """Windows between branches, with one literal far after all of them, so that each replacement moves all lines up to there."""
    yield from ("ldr r3, loose", "b over", "loose: .word 1", "over:")
    for i in range(n // 3):
        yield from (f"a{i}: mov r1, r1", f"beq a{i}", "adds r1, #1")
    yield from ("ldr r3, last", "bx lr", ".align 2", "last: .word 1")


def pools(n):
    """Windows before literals and their alignments: a replacement moves the next pool by four bytes or not at all."""
    for i in range(n // 8):
        yield from (f"ldr r3, l{i}", "mov r1, r1", f"ldr r2, l{i}", "mov r3, r3", "str r3, [r2]", f"b m{i}", ".align 2", f"l{i}: .word {i}")
        yield f"m{i}:"
    yield "bx lr"


def refused(n, parts):
    """Branches at the end of their reach across an alignment, so that the window before each is refused."""
    for i in parts:
        yield from (".align 2", f"w{i}: mov r1, r1", f"beq e{i}", *["adds r1, #1"] * 126, ".align 2", f"e{i}: adds r1, #1")


def refused_before(n):
    """Refused windows before as many lines with accepted ones."""
    yield from refused(n, range(n // 264))
    yield from ["mov r1, r1", "adds r1, #1"] * (n // 4)
    yield "bx lr"


def refused_behind(n):
    """Refused windows after as many lines with accepted ones."""
    yield from ["mov r1, r1", "adds r1, #1"] * (n // 4)
    yield from refused(n, range(n // 264))
    yield "bx lr"


def set_address(n):
    """Calls of an address set at the end of the first call's reach, after a window that is refused because of it, and windows between them."""
    yield f".set f, {16_777_216 + 4}"
    yield from ("mov r1, r1", *(line for _ in range(n // 3) for line in ("bl f", "mov r2, r2", "adds r2, #1")), "bx lr")


# ---- entries ----


def equal_entries(n):
    """Windows that each of n/4 equal entries matches."""
    yield from ["mov r2, r2", "adds r2, #1"] * (n // 2)
    yield "bx lr"


def forbidden_entries(n):
    """Windows that each of n/4 entries matches, none of which applies, as the carry is read after it."""
    for _ in range(n // 3):
        yield from ("adcs r2, r3", "movs r2, r2", "adcs r2, r3")
    yield "bx lr"


# ---- costs ----


def labelled(n):
    """Windows whose replacements are as long, each with a label, which gets a line of its own."""
    for i in range(n):
        yield f"a{i}: lsls r{i % 8}, r{i % 8}, #1"
    yield "bx lr"


def waiting(n):
    """A listing with the most lines allowed: such windows, then as many windows whose replacement removes a line and so makes room for one of the former."""
    yield from list(labelled(n // 2))[:-1]
    yield from ["mov r1, r1"] * (n // 2)
    yield from [""] * (MOST_LINES - n // 2 * 2 - 1)
    yield "bx lr"


DEAD = "entry\nleft mov r0, r1\nmask r1 n z c v\nproof\n"

TABLES = {
    collapse_last: lambda n: table(DEAD),
    alternating: lambda n: table(DEAD),
    equal_entries: lambda n: table(MOV * (n // 4)),
    forbidden_entries: lambda n: table(ADCS * (n // 4)),
    labelled: lambda n: table_by_costs(DOUBLE),
    waiting: lambda n: table_by_costs(DOUBLE + MOV),
}

SHAPES = {
    groups_backward: 7_500,
    groups_forward: 7_500,
    chain: 15_000,
    calls: 15_000,
    pops: 15_000,
    blx: 15_000,
    loop_of_calls: 15_000,
    read_far_back: 15_000,
    branches_over: 15_000,
    idle_and_windows: 15_000,
    moves: 15_000,
    apart: 15_000,
    literals: 15_000,
    collapse_first: 15_000,
    collapse_last: 15_000,
    ends: 15_000,
    alternating: 15_000,
    return_points: 15_000,
    labels: 15_000,
    aligned: 15_000,
    moves_on: 15_000,
    pools: 14_000,
    refused_before: 15_000,
    refused_behind: 15_000,
    set_address: 15_000,
    equal_entries: 8_000,
    forbidden_entries: 8_000,
    labelled: 30_000,
    waiting: 15_000,
}


def main():
    words = sys.argv[1:]
    if not words:
        for shape, count in SHAPES.items():
            print(shape.__name__, count)
        return
    shape = {shape.__name__: shape for shape in SHAPES}[words[0]]
    n = int(words[1])
    if words[2:] != ["--listing"]:
        sys.stdout.write(TABLES.get(shape, lambda n: rules())(n))
    if words[2:] == ["--table"]:
        return
    sys.stdout.writelines(f"{line if ':' in line.split(' ')[0] else chr(9) + line}\n" for line in shape(n))


if __name__ == "__main__":
    main()
