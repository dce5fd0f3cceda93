#!/usr/bin/env python3
"""The formula of an instruction against the empty sequence, made independently of the crates: rows for a test. Use: bench/formulas.py"""

FALSE, TRUE = False, True


def is_constant(bit):
    return bit is FALSE or bit is TRUE


def contrary(bit):
    return (not bit) if is_constant(bit) else -bit


def order(literal):
    return (abs(literal), literal < 0)


class Builder:
    def __init__(self):
        self.variables, self.clauses, self.gates = 0, [], {}

    def input(self):
        self.variables += 1
        return self.variables

    def gate(self, key, clauses):
        if key not in self.gates:
            self.variables += 1
            self.gates[key] = self.variables
            self.clauses += clauses(self.variables)
        return self.gates[key]

    def conj(self, a, b):
        if a is FALSE or b is FALSE or (not is_constant(a) and a == contrary(b) and not is_constant(b)):
            return FALSE
        if a is TRUE:
            return b
        if b is TRUE or a == b:
            return a
        a, b = sorted((a, b), key=order)
        return self.gate(("and", a, b), lambda g: [[-g, a], [-g, b], [g, -a, -b]])

    def disj(self, a, b):
        return contrary(self.conj(contrary(a), contrary(b)))

    def xor(self, a, b):
        if is_constant(a):
            return contrary(b) if a else b
        if is_constant(b):
            return contrary(a) if b else a
        if abs(a) == abs(b):
            return a != b
        x, y = sorted((abs(a), abs(b)))
        g = self.gate(("xor", x, y), lambda g: [[-g, x, y], [-g, -x, -y], [g, -x, y], [g, x, -y]])
        return contrary(g) if (a < 0) != (b < 0) else g

    def ite(self, c, t, e):
        if is_constant(c):
            return t if c else e
        if t is e or (not is_constant(t) and not is_constant(e) and t == e):
            return t
        if t is TRUE:
            return self.disj(c, e)
        if t is FALSE:
            return self.conj(contrary(c), e)
        if e is TRUE:
            return self.disj(contrary(c), t)
        if e is FALSE:
            return self.conj(c, t)
        if t == contrary(e):
            return self.xor(c, e)
        if c < 0:
            c, t, e = -c, e, t
        return self.gate(("ite", c, t, e), lambda g: [[-g, -c, t], [-g, c, e], [g, -c, -t], [g, c, -e]])

    def or_clause(self, bits):
        literals = []
        for bit in bits:
            if bit is TRUE:
                return
            if bit is not FALSE and bit not in literals:
                literals.append(bit)
        if any(-literal in literals for literal in literals):
            return
        self.clauses.append(literals)

    # circuits

    def add(self, x, y, c):
        value, before = [], c
        for i in range(32):
            p = self.xor(x[i], y[i])
            value.append(self.xor(p, c))
            g = self.conj(x[i], y[i])
            h = self.conj(p, c)
            before, c = c, self.disj(g, h)
        return value, c, self.xor(before, c)

    def zero(self, value):
        z = TRUE
        for bit in value:
            z = self.conj(z, contrary(bit))
        return z

    def each(self, op, x, y):
        return [op(a, b) for a, b in zip(x, y)]

    def product(self, x, y):
        total = [FALSE] * 32
        for j in range(32):
            row = [FALSE if i < j else self.conj(x[i - j], y[j]) for i in range(32)]
            total, _, _ = self.add(total, row, FALSE)
        return total

    def shift(self, kind, x, a, c):
        def moved(bits, n, i):
            if kind == "lsl":
                return bits[i - n] if i >= n else FALSE
            fill = bits[31] if kind == "asr" else FALSE
            return bits[i + n] if i + n < 32 else fill

        for j in range(5):
            n = 1 << j
            out = x[32 - n] if kind == "lsl" else x[n - 1]
            x = [self.ite(a[j], moved(x, n, i), x[i]) for i in range(32)]
            c = self.ite(a[j], out, c)
        fill, out = (x[31] if kind == "asr" else FALSE), (x[0] if kind == "lsl" else x[31])
        x = [self.ite(a[5], fill, x[i]) for i in range(32)]
        c = self.ite(a[5], out, c)
        far = self.disj(a[6], a[7])
        fill = x[31] if kind == "asr" else FALSE
        x = [self.ite(far, fill, x[i]) for i in range(32)]
        return x, self.ite(far, fill, c)

    def rotate(self, x, a, c):
        for j in range(5):
            x = [self.ite(a[j], x[(i + (1 << j)) % 32], x[i]) for i in range(32)]
        some = FALSE
        for bit in a[:8]:
            some = self.disj(some, bit)
        return x, self.ite(some, x[31], c)


def inverted(x):
    return [contrary(bit) for bit in x]


def constant(n):
    return [bool(n >> i & 1) for i in range(32)]


def step(b, half, r, f):
    """The registers and flags after an instruction."""
    r, f = [list(word) for word in r], dict(f)

    def result(d, value, c=None, v=None, write=True):
        if c is not None:
            f["c"] = c
        if v is not None:
            f["v"] = v
        f["z"], f["n"] = b.zero(value), value[31]
        if write:
            r[d] = value

    d, m, top = half & 7, half >> 3 & 7, half >> 11
    if top < 3:
        n = half >> 6 & 31
        if top == 0 and n == 0:
            result(d, r[m])
        elif top == 0:
            result(d, [FALSE] * n + r[m][: 32 - n], r[m][32 - n])
        else:
            n = n or 32
            fill = r[m][31] if top == 2 else FALSE
            result(d, r[m][n:] + [fill] * n, r[m][n - 1])
    elif top == 3:
        y = constant(half >> 6 & 7) if half & 0x400 else r[half >> 6 & 7]
        value = b.add(r[m], inverted(y) if half & 0x200 else y, bool(half & 0x200))
        result(d, *value)
    elif top < 8:
        d, y, op = half >> 8 & 7, constant(half & 255), top & 3
        if op == 0:
            result(d, y)
        else:
            value = b.add(r[d], y if op == 2 else inverted(y), op != 2)
            result(d, *value, write=op != 1)
    elif half >> 10 == 16:
        x, y, op = r[d], r[m], half >> 6 & 15
        if op in (0, 8):
            result(d, b.each(b.conj, x, y), write=op == 0)
        elif op == 1:
            result(d, b.each(b.xor, x, y))
        elif op in (2, 3, 4):
            value, c = b.shift({2: "lsl", 3: "lsr", 4: "asr"}[op], x, y, f["c"])
            result(d, value, c)
        elif op == 5:
            result(d, *b.add(x, y, f["c"]))
        elif op == 6:
            result(d, *b.add(x, inverted(y), f["c"]))
        elif op == 7:
            value, c = b.rotate(x, y, f["c"])
            result(d, value, c)
        elif op == 9:
            result(d, *b.add(inverted(y), constant(0), TRUE))
        elif op == 10:
            result(d, *b.add(x, inverted(y), TRUE), write=False)
        elif op == 11:
            result(d, *b.add(x, y, FALSE), write=False)
        elif op == 12:
            result(d, b.each(b.disj, x, y))
        elif op == 13:
            result(d, b.product(x, y))
        elif op == 14:
            result(d, b.each(b.conj, x, inverted(y)))
        else:
            result(d, inverted(y))
    elif half >> 8 == 0x44:
        r[d], _, _ = b.add(r[d], r[m], FALSE)
    elif half >> 8 == 0x46:
        r[d] = r[m]
    elif half >> 8 == 0xB2:
        kind, x = half >> 6 & 3, r[m]
        n = 8 if kind & 1 else 16
        r[d] = x[:n] + [FALSE if kind & 2 else x[n - 1]] * (32 - n)
    else:
        x, kind = r[m], half >> 6 & 3
        one, two, three, four = x[:8], x[8:16], x[16:24], x[24:]
        r[d] = {0: four + three + two + one, 1: two + one + four + three, 3: two + one + [x[7]] * 16}[kind]
    return r, f


def formula(sequence):
    b = Builder()
    start = [[b.input() for _ in range(32)] for _ in range(4)]
    flags = {name: b.input() for name in "nzcv"}
    r, f = start, flags
    for half in sequence:
        r, f = step(b, half, r, f)
    found = []
    for left, right in zip(r, start):
        found += b.each(b.xor, left, right)
    found += [b.xor(f[name], flags[name]) for name in "nzcv"]
    b.or_clause(found)
    return b


def rotated(word, n):
    return (word << n | word >> (32 - n)) & 0xFFFFFFFF


def digest(clauses):
    value = 0
    for clause in clauses:
        value = rotated(value, 3) ^ 1
        for literal in clause:
            value = rotated(value, 5) ^ (literal & 0xFFFFFFFF)
    return value


HALFWORDS = (
    [0x0008, 0x00D1, 0x07C8, 0x0813, 0x0889, 0x101A, 0x17D0, 0x1888, 0x18D2, 0x1A53, 0x1D48, 0x1FCA, 0x1E00, 0x2118, 0x2A7F, 0x33FF, 0x3801]
    + [0x4000 | op << 6 | m << 3 | d for op in range(16) for m, d in ((1, 0), (2, 2))]
    + [0x4408, 0x441B, 0x460A, 0x4600, 0xB208, 0xB251, 0xB298, 0xB2C3, 0xBA08, 0xBA52, 0xBAC1]
)

if __name__ == "__main__":
    for half in HALFWORDS:
        b = formula([half])
        print(f"    {half:#06x}, {b.variables}, {len(b.clauses)}, {digest(b.clauses):#010x},")
    b = formula([0x4091, 0x41C8, 0x4341])
    print(f"    {b.variables}, {len(b.clauses)}, {digest(b.clauses):#010x},")
