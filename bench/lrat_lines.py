"""Clauses, proofs in DRAT, and lines of LRAT with hints.

A proof that a solver wrote in DRAT (a line for each clause that is added or, after `d`, deleted)
becomes lines of LRAT: each added clause gets the hints by which reverse unit propagation accepts
it, found by propagating over the live clauses and tracing back from the clause that became false.
"""


def read_dimacs(path):
    """The number of variables and the clauses of a formula in DIMACS."""
    variables, clauses, clause = 0, [], []
    with open(path) as file:
        for line in file:
            words = line.split()
            if not words or words[0] == "c":
                continue
            if words[0] == "p":
                variables = int(words[2])
                continue
            for word in words:
                if word == "0":
                    clauses.append(clause)
                    clause = []
                else:
                    clause.append(int(word))
    return variables, clauses


def read_drat(path):
    """The lines of a proof in DRAT: whether the clause is deleted, and its literals."""
    with open(path) as file:
        for line in file:
            words = line.split()
            if not words or words[0] == "c":
                continue
            deleted = words[0] == "d"
            yield deleted, [int(word) for word in words[deleted:-1]]


class Propagator:
    """Live clauses, each watched at two of its literals."""

    def __init__(self):
        self.clauses = {}
        self.watchers = {}
        self.units = {}
        self.by_literals = {}

    def add(self, number, clause):
        literals = list(dict.fromkeys(clause))
        self.by_literals.setdefault(tuple(sorted(literals)), []).append(number)
        self.clauses[number] = literals
        if any(-literal in literals for literal in literals):
            return
        if len(literals) < 2:
            self.units[number] = literals
            return
        for literal in literals[:2]:
            self.watchers.setdefault(literal, []).append(number)

    def delete(self, clause):
        """Deletes a live clause with these literals, and returns its number."""
        numbers = self.by_literals.get(tuple(sorted(set(clause))))
        if not numbers:
            return None
        number = numbers.pop()
        del self.clauses[number]
        self.units.pop(number, None)
        return number

    def hints(self, clause):
        """The hints for the clause, or None if propagation doesn't derive it."""
        reasons, trail = {}, []

        def assign(literal, reason):
            reasons[literal] = reason
            trail.append(literal)

        for literal in clause:
            if literal in reasons:
                return None
            if -literal not in reasons:
                assign(-literal, None)
        conflict = self.propagate(reasons, trail, assign)
        if conflict is None:
            return None
        wanted = {-literal for literal in self.clauses[conflict]}
        found = [conflict]
        for literal in reversed(trail):
            reason = reasons[literal]
            if literal in wanted and reason is not None:
                found.append(reason)
                wanted.update(-other for other in self.clauses[reason] if other != literal)
        return found[::-1]

    def propagate(self, reasons, trail, assign):
        for number, literals in self.units.items():
            if not literals or -literals[0] in reasons:
                return number
            if literals[0] not in reasons:
                assign(literals[0], number)
        head = 0
        while head < len(trail):
            false = -trail[head]
            head += 1
            watching, kept = self.watchers.get(false, []), []
            for place, number in enumerate(watching):
                literals = self.clauses.get(number)
                if literals is None:
                    continue
                if literals[0] == false:
                    literals[0], literals[1] = literals[1], literals[0]
                if literals[0] in reasons:
                    kept.append(number)
                    continue
                for k in range(2, len(literals)):
                    if -literals[k] not in reasons:
                        literals[1], literals[k] = literals[k], literals[1]
                        self.watchers.setdefault(literals[1], []).append(number)
                        break
                else:
                    kept.append(number)
                    if -literals[0] in reasons:
                        self.watchers[false] = kept + watching[place + 1 :]
                        return number
                    assign(literals[0], number)
            self.watchers[false] = kept
        return None


def lines(clauses, drat):
    """The lines of LRAT: (id, literals, hints) for an addition, (id, ids) for a deletion."""
    propagator = Propagator()
    for number, clause in enumerate(clauses, 1):
        propagator.add(number, clause)
    last = len(clauses)
    for deleted, literals in drat:
        if deleted:
            number = propagator.delete(literals)
            if number is not None:
                yield last, [number]
            continue
        literals = list(dict.fromkeys(literals))
        hints = propagator.hints(literals)
        if hints is None:
            raise ValueError(f"no propagation shows {literals}")
        last += 1
        propagator.add(last, literals)
        yield last, literals, hints
        if not literals:
            return


def text(line):
    """The text of a line."""
    if len(line) == 2:
        number, ids = line
        return " ".join(map(str, [number, "d", *ids, 0]))
    number, literals, hints = line
    return " ".join(map(str, [number, *literals, 0, *hints, 0]))


class Checker:
    """A second checker, written from the format's description, to judge damaged lines."""

    def __init__(self, clauses):
        self.live = dict(enumerate(clauses, 1))
        self.last = len(clauses)

    def fault(self, line):
        """Why the line is refused: a name, with a place counted from 1 where there is one."""
        if len(line) == 2:
            ids = line[1]
            for place, number in enumerate(ids, 1):
                if number not in self.live or number in ids[: place - 1]:
                    return f"Dead({place})"
            return None
        number, literals, hints = line
        if number <= self.last:
            return "Order"
        if any(hint < 0 for hint in hints):
            return "Rat"
        true = {-literal for literal in literals}
        for place, hint in enumerate(hints, 1):
            if hint not in self.live:
                return f"Dead({place})"
            clause = self.live[hint]
            unset = {literal for literal in clause if literal not in true and -literal not in true}
            if any(literal in true for literal in clause) or len(unset) > 1:
                return f"Hint({place})"
            if not unset:
                return None
            true |= unset
        return "NoConflict"

    def add(self, line):
        if len(line) == 2:
            for number in line[1]:
                del self.live[number]
        else:
            self.live[line[0]] = line[1]
            self.last = line[0]
