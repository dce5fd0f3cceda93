"""Writes a table of about BYTES bytes to standard output: always the same for the same number. Use: tables.py BYTES"""
import random
import sys

SIDES = [
    (["lsls r0, r0, #24", "lsrs r0, r0, #24"], ["uxtb r0, r0"], "r0 n z c v"),
    (["movs r0, #0", "subs r0, r0, r1"], ["rsbs r0, r1, #0"], "r0 r1 z"),
    (["adds r0, r1, #0", "adds r2, r0, r3", "mvns r2, r2"], ["adds r2, r1, r3", "mvns r2, r2"], "r2 r3"),
    (["muls r0, r1, r0", "adds r0, #7"], ["muls r0, r1, r0"], ""),
]


def lines(limit):
    numbers = random.Random(1)
    yield "peep 1\nregs 4\nleft 3\nseed 42\nbudget 20000\npool 0 1 2 4 8 16 24 31 255\n"
    for _ in range(64):
        words = " ".join(f"{numbers.getrandbits(32):08x}" for _ in range(4))
        yield f"state {words} {numbers.getrandbits(4):x}\n"
    written = 0
    while written < limit:
        left, right, mask = numbers.choice(SIDES)
        entry = ["entry"] + [f"left {side}" for side in left] + [f"right {side}" for side in right]
        entry += [("mask " + mask).strip(), "proof"]
        clause = 4000
        for part in range(3):
            if part:
                entry.append(f"open {part * 1000 + numbers.randrange(1000)}")
            for _ in range(40):
                clause += 1
                variables = numbers.sample(range(1, 2000), 5)
                literals = " ".join(str(v if numbers.random() < 0.5 else -v) for v in variables)
                hints = " ".join(str(numbers.randrange(1, clause)) for _ in range(8))
                entry.append(f"{clause} {literals} 0 {hints} 0")
            entry.append(f"{clause} d {clause - 1} {clause - 2} 0")
        text = "\n".join(entry) + "\n"
        written += len(text)
        yield text
    yield "end\n"


for part in lines(int(sys.argv[1])):
    sys.stdout.write(part)
