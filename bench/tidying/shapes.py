#!/usr/bin/env python3
"""Writes a listing of some shape to be tidied, of about N lines. Use: shapes.py SHAPE N > listing.s, or without arguments: the shapes, each with the N at which
it is measured, which may be doubled; or shapes.py --random FOLDER COUNT [SEED]: random listings, a file for each, with chains, idle code, unaligned
literals, alignments that grow, addresses that are set, and branches that often go as far as they can."""
import random
import sys

CONDITIONS = ["eq", "ne", "cs", "cc", "mi", "pl", "vs", "vc", "hi", "ls", "ge", "lt", "gt", "le"]


def mixed(n):
    """Functions of 21 lines with six changes of all three kinds: branches to the next place, branches to branches, and code after returns."""
    for i in range(n // 21):
        yield from (f"f{i}:", "\tcmp\tr0, #0", f"\tbeq\ta{i}", "\tadds\tr0, #1", f"\tb\tc{i}", "\tmovs\tr1, #2", "\tmovs\tr2, #3")
        yield from (f"a{i}:", f"\tb\td{i}", f"c{i}:", "\tldr\tr1, w%d" % i, f"\tbne\te{i}", f"e{i}:", "\tadds\tr1, #1", f"d{i}:", "\tbx\tlr", "\tnop", "\tnop")
        yield from ("\t.align\t2", f"w{i}:", f"\t.word\t{i}")


def each_next(n):
    """Branches, each to the next place."""
    for i in range(n):
        yield f"a{i}:\tb\ta{i + 1}"
    yield from (f"a{n}:", "\tbx\tlr")


def each_next_if(n):
    """The same with conditions; in the end all their targets are at one place."""
    for i in range(n):
        yield f"a{i}:\tb{CONDITIONS[i % 14]}\ta{i + 1}"
    yield from (f"a{n}:", "\tbx\tlr")


def chains(n):
    """Chains of 500 branches within reach of their end."""
    for i in range(n // 501):
        yield f"a{i}_0:\tbx\tlr"
        yield from (f"a{i}_{k}:\tb\ta{i}_{k - 1}" for k in range(1, 501))


def far_chain(n):
    """A chain of branches whose end only the last of them can reach."""
    yield "a0:\tbx\tlr"
    yield from ("\t.word\t0" for _ in range(510))
    yield from (f"a{k}:\tb\ta{k - 1}" for k in range(1, n))


def idle_in_chain(n):
    """The same with idle code between, so that each branch comes nearer to the end."""
    yield "a0:\tbx\tlr"
    yield from ("\t.word\t0" for _ in range(510))
    for k in range(1, n // 2):
        yield from (f"a{k}:\tb\ta{k - 1}", "\tnop")


def far_chain_and_next(n):
    """A chain that stays, and in it branches to the next place at whose labels chains end."""
    yield "a0:\tbx\tlr"
    yield from ("\t.word\t0" for _ in range(510))
    for k in range(1, n // 5):
        yield from (f"a{k}:\tb\ta{k - 1}", f"c{k}:\tb\tb{k}", f"b{k}:\tb\td{k}", f"d{k}:\tadds\tr0, #1", f"\tb\tc{k}")


def turning_end(n):
    """A label at which a chain alternately ends and goes on as the branches after it are removed, with branches to it that stay."""
    for k in range(400):
        yield f"a{k}:\tb\tb{k}"
    for k in range(400):
        yield f"b{k}:\tb\tc0"
    for k in range(0, n, 2):
        yield from (f"c{k}:\tbeq\tc{k + 1}", f"c{k + 1}:\tb\tc{k + 2}")
    yield f"c{n // 2 * 2}:\tbx\tlr"


def idle(n):
    """Code that nothing reaches, with aligned literals between."""
    for i in range(n // 20):
        yield from (f"a{i}:\tldr\tr0, w{i}", "\tbx\tlr", *["\tadds\tr0, #1"] * 15, "\t.align\t2", f"w{i}:", f"\t.word\t{i}")


def unaligned(n):
    """Idle code before an unaligned literal, of which only what is four bytes long may be removed."""
    for _ in range(n // 2):
        yield from ("\tnop", "\tdsb")
    yield from ("a:\tldr\tr0, w", "\tbx\tlr", "w:\t.word\t1")


def held(n):
    """Idle code before alignments, with a branch across each alignment that is at the end of its reach."""
    for i in range(n // 134):
        yield from (f"a{i}:\tb\td{i}", "\tnop", "\tnop", "\t.align\t2", f"d{i}:\tbeq\te{i}")
        yield from ["\tadds\tr0, #1"] * 64
        yield "\t.p2align\t2"
        yield from ["\tadds\tr0, #1"] * 63
        yield f"e{i}:\tbx\tlr"


SHAPES = [
    (mixed, 129_500),
    (each_next, 60_000),
    (each_next_if, 60_000),
    (chains, 60_000),
    (far_chain, 60_000),
    (idle_in_chain, 60_000),
    (far_chain_and_next, 60_000),
    (turning_end, 60_000),
    (idle, 60_000),
    (unaligned, 60_000),
    (held, 60_000),
]


class Writer:
    """A random listing: items are texts with sizes, labels, words and alignments. Branches and literal loads get their labels once all addresses are known."""

    def __init__(self, rng):
        self.rng = rng
        self.items = []
        self.labels = 0
        self.literals = 0
        self.lean = [rng.random() for _ in range(6)]
        self.sizes = rng.choice([[1, 2], [2, 3], [2, 3, 4, 8], [3]])
        self.lengths = rng.choice([[0], [0, 20], [0, 0, 0, 0, 30]])
        self.gaps = rng.choice([[1], [1, 20], [1, 60, 120], [100, 400, 500]])

    def put(self, kind, *words):
        self.items.append((kind, *words))

    def label(self):
        length = self.rng.choice(self.lengths)
        self.put("label", f"a{self.labels}" + "x" * length)
        self.labels += 1

    def branch(self):
        self.put("op", self.rng.choice(["b", "b", "b" + self.rng.choice(CONDITIONS), "bl"]) + " ?", None)

    def data(self, is_aligned):
        if is_aligned:
            self.put("align", self.rng.choice(self.sizes), self.rng.choice([None, None, 2, 3]))
        self.put("words", f"w{self.literals}", self.rng.choice(self.gaps))
        self.literals += 1

    def unit(self):
        rng, lean = self.rng, self.lean
        kinds = [0.5 + lean[0], 0.3 + lean[1], lean[2], lean[3], 0.4 * lean[4], 0.2 * lean[5], 0.3]
        kind = rng.choices(range(7), kinds)[0]
        if kind == 0:
            self.branch()
        elif kind == 1:
            self.label()
            if rng.random() < 0.6:
                self.branch()
        elif kind == 2:
            self.put("op", rng.choice(["adds r0, #1", "nop", "cmp r0, #1", "dsb", "mrs r0, ipsr", "blx r3", "bl far", "movs r0, #7"]), None)
        elif kind == 3:
            self.put("op", rng.choice(["bx lr", "pop {r4, pc}", "b far", "b set", "b self", "bx r3"]), None)
        elif kind == 4:
            self.put("op", rng.choice(["ldr r1, =", "adr r1, ="]), None)
        elif kind == 5:
            self.put("op", rng.choice(["bx lr", "b far"]), None)
            self.data(rng.random() < 0.5)
            if rng.random() < 0.7:
                self.label()
                self.put("op", "cmp r0, #3", None)
        else:
            self.put("align", rng.choice(self.sizes), rng.choice([None, None, 1, 2, 3, 6]))

    def laid(self, base):
        """The address of each item, of each code label, and of each name of words."""
        at, found, code, words, waits = base, [], {}, {}, []
        for kind, *item in self.items:
            found.append(at)
            if kind == "label":
                waits.append((item[0], at))
            elif kind == "op":
                at += 4 if item[0].split()[0] in ("bl", "dsb", "mrs") else 2
                code.update(waits)
                waits = []
            elif kind == "words":
                words[item[0]] = at
                at += 4 * item[1]
                waits = []
            else:
                need = -at % (1 << item[0])
                at += need if item[1] is None or need <= item[1] else 0
        return found, code, words

    def chosen(self, at, code, reach):
        """A code label within reach of a branch, often the farthest."""
        found = [name for name, to in code.items() if -reach <= to - at - 4 < reach]
        if not found:
            return None
        if self.rng.random() < 0.3:
            return max(found, key=lambda name: abs(code[name] - at - 4))
        if self.rng.random() < 0.5:
            return min(found, key=lambda name: abs(code[name] - at - 6 + self.rng.randrange(6)))
        return self.rng.choice(found)

    def text(self, item, at, code, words):
        text = item[0]
        if text.endswith("?"):
            reach = {"b": 2048, "bl": 1 << 24}.get(text[:-2], 256)
            name = self.chosen(at, code, reach)
            return text[:-1] + name if name else ("nop" if not text.startswith("bl ") else "bl far")
        if text.endswith("="):
            found = [name for name, to in words.items() if to % 4 == 0 and 0 <= to - (at + 4) // 4 * 4 <= 1020]
            return text[:-1] + self.rng.choice(found) if found else "movs r1, #1"
        return text

    def lines(self, count, base):
        for _ in range(count):
            self.unit()
        self.put("op", "bx lr", None)
        found, code, words = self.laid(base)
        far = [at + 4 + self.rng.choice([2046, 2042, 2000, 0, -2048, 100]) for (kind, *item), at in zip(self.items, found) if item[0] == "b set"]
        lines = [f".set set, {max(0, self.rng.choice(far) // 2 * 2)}"] if far else []
        for (kind, *item), at in zip(self.items, found):
            if kind == "label":
                # a label on its own line, or on the next one's
                lines.append(f"{item[0]}:")
                if item[0] not in code:
                    lines[-1] = "\t@ no code"
            elif kind == "op":
                lines.append(f"\t{self.text(item, at, code, words)}")
                if lines[-2:-1] and lines[-2].endswith(":") and self.rng.random() < 0.5:
                    lines[-2:] = [lines[-2] + lines[-1]]
            elif kind == "words":
                lines.append(f"{item[0]}:")
                lines += ["\t.word " + ", ".join(["7"] * min(20, item[1] - n)) for n in range(0, item[1], 20)]
            else:
                lines.append(f"\t.p2align {item[0]}" + (f",,{item[1]}" if item[1] is not None else ""))
        return lines


def main():
    if len(sys.argv) < 3:
        for shape, count in SHAPES:
            print(shape.__name__, count)
    elif sys.argv[1] == "--random":
        folder, count = sys.argv[2], int(sys.argv[3])
        rng = random.Random(int(sys.argv[4]) if len(sys.argv) > 4 else 1)
        for n in range(count):
            lines = Writer(rng).lines(rng.choice([5, 10, 30, 100, 300]), 0)
            with open(f"{folder}/{n}.s", "w", encoding="ascii") as file:
                file.writelines(line + "\n" for line in lines)
    else:
        shape = {shape.__name__: shape for shape, _ in SHAPES}[sys.argv[1]]
        sys.stdout.writelines(line + "\n" for line in shape(int(sys.argv[2])))


main()
