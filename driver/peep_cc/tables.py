"""Reads and writes tables of rules, drops needless entries and families, and merges several tables.

Each table is audited from its text before it is used, so nothing here has to be trusted.
"""

from __future__ import annotations

import os
import re
from collections.abc import Iterable

from .files import write_text


VERSION_OF_FAMILIES = 3
# the mnemonics that the numbers of a table's line `costs` belong to, in this order
COSTED = "adds subs movs cmp lsls lsrs asrs ands eors adcs sbcs rors tst rsbs cmn orrs muls bics mvns mov add sxth sxtb uxth uxtb rev rev16 revsh".split()
Costs = dict[str, int]
"""The cost of an instruction by its mnemonic. If it is empty, each costs 1, so that a side costs its number of instructions."""
# the instructions whose number has 8 bits
IN_BYTES = re.compile(r"((?:movs|cmp|adds|subs) r\d, #)(\d+)$")


class TableError(Exception):
    """Tables that can't be merged, or a family without its entry."""


def bytes_of(side: list[str]) -> list[int | None]:
    """The 8-bit operands of a side's instructions, None for an instruction without one."""
    return [int(found[2]) if (found := IN_BYTES.match(line)) else None for line in side]


def instance(side: list[str], number: int, value: int) -> list[str]:
    """A side with a value in place of a number, wherever this is an 8-bit operand."""
    return [f"{found[1]}{value}" if (found := IN_BYTES.match(line)) and int(found[2]) == number else line for line in side]


class Entry:
    """A left and a right side, the items that both leave the same (the mask), the proof, and the logs of open sequences; all as text."""

    def __init__(
        self,
        left: list[str] | None = None,
        right: list[str] | None = None,
        mask: frozenset[str] = frozenset(),
        proof: list[str] | None = None,
        opens: list[tuple[int, list[str]]] | None = None,
        costs: Costs | None = None,
    ) -> None:
        self.left = left or []
        self.right = right or []
        self.mask = mask
        self.proof = proof or []
        self.opens = opens or []
        self.costs = costs or {}

    def cost(self, side: list[str]) -> int:
        """What a side costs."""
        return sum(self.costs.get(line.partition(" ")[0], 1) for line in side) if self.costs else len(side)

    def gain(self) -> int:
        """By how much its right side costs less than its left side."""
        return self.cost(self.left) - self.cost(self.right)

    def rank(self) -> tuple[int, int]:
        """The cost of its right side, then its number of instructions: the lower, the better."""
        return self.cost(self.right), len(self.right)

    def is_shorter(self) -> bool:
        """Whether it removes an instruction, or in a table with costs lowers the cost."""
        return self.gain() > 0

    def covers(self, other: Entry) -> bool:
        """Whether the other entry is needless beside this one: the same left side, a smaller mask, no better right side."""
        return self is not other and self.left == other.left and self.mask > other.mask and self.rank() <= other.rank()

    def text(self) -> str:
        """Its text in a table."""
        mask = "".join(f" {item}" for item in ("r0", "r1", "r2", "r3", "n", "z", "c", "v") if item in self.mask)
        lines = ["entry", *(f"left {side}" for side in self.left), *(f"right {side}" for side in self.right), "mask" + mask, "proof", *self.proof]
        for number, log in self.opens:
            lines += [f"open {number}", *log]
        return "".join(line + "\n" for line in lines)


class Family:
    """A raised entry: each value of a range may take the place of a number, wherever this is an 8-bit operand of its sides. The proof is lines of text."""

    def __init__(self, entry: Entry, number: int, low: int, high: int, proof: list[str] | None = None) -> None:
        self.entry = entry
        self.number = number
        self.low = low
        self.high = high
        self.proof = proof or []

    def width(self) -> int:
        """How many values its range has."""
        return self.high - self.low + 1

    def pattern(self) -> tuple[str, ...]:
        """The left side with `?` for the number, wherever this is an 8-bit operand."""
        return tuple(f"{found[1]}?" if (found := IN_BYTES.match(line)) and int(found[2]) == self.number else line for line in self.entry.left)

    def value_for(self, left: list[str]) -> int | None:
        """The value of the range for which its left side is `left`, or None."""
        if len(left) != len(self.entry.left):
            return None
        values = {value for own, value in zip(bytes_of(self.entry.left), bytes_of(left)) if own == self.number}
        value = values.pop() if len(values) == 1 else None
        if value is None or not self.low <= value <= self.high or instance(self.entry.left, self.number, value) != left:
            return None
        return value

    def covers_entry(self, other: Entry) -> bool:
        """Whether an entry is needless beside this family. The entry that it raises is always needed."""
        wide = self.entry is not other and self.entry.mask >= other.mask and self.entry.rank() <= other.rank()
        return wide and self.value_for(other.left) is not None

    def covers(self, other: Family) -> bool:
        """Whether the other family is needless beside this one, and doesn't do the same."""
        own, its = self.entry, other.entry
        if self is other or not (self.low <= other.low and other.high <= self.high and own.mask >= its.mask and own.rank() <= its.rank()):
            return False
        wider = self.width() > other.width() or own.mask > its.mask or own.rank() < its.rank()
        return wider and self.pattern() == other.pattern()

    def is_as(self, other: Family) -> bool:
        """Whether both do the same."""
        own, its = self.entry, other.entry
        return (self.low, self.high, own.mask, own.rank()) == (other.low, other.high, its.mask, its.rank()) and self.pattern() == other.pattern()

    def text(self, place: int) -> str:
        """Its text in a table; `place` is its entry's number, from 1."""
        return "".join(line + "\n" for line in [f"family {place} {self.number} {self.low} {self.high}", "proof", *self.proof])


class Table:
    """A table's header, its listed states, its entries and the families that raise some of them."""

    def __init__(
        self, head: list[str] | None = None, states: list[str] | None = None, entries: list[Entry] | None = None, families: list[Family] | None = None
    ) -> None:
        self.head = head or []
        self.states = states or []
        self.entries = entries or []
        self.families = families or []

    def text(self) -> str:
        """The table's text. Families refer to their entries by the present numbers."""
        places = {id(entry): place for place, entry in enumerate(self.entries, 1)}
        parts = [line + "\n" for line in [*self.head, *self.states]]
        parts += [entry.text() for entry in self.entries]
        parts += [family.text(places[id(family.entry)]) for family in self.families]
        return "".join(parts) + "end\n"

    def bare(self) -> Table:
        """The table without entries: with it `peep` reads a listing, replaces nothing, and has nothing to audit."""
        return Table(self.head, self.states, [])

    def pool(self) -> list[int]:
        """The numbers of its pool."""
        return [int(word) for line in self.head if line.startswith("pool ") for word in line.split()[1:]]


def in_version(head: list[str], least: int) -> list[str]:
    """A header in version `least`, unchanged if its own is later. From version 2 on, a line after the pool gives the number of scratch registers."""
    version = int(head[0].split()[1])
    if version >= least:
        return head
    scratch = ["scratch 0"] if version < 2 <= least else []
    return [f"peep {least}", *head[1:], *scratch]


def read_table(text: str) -> Table:
    """Reads the text of a table that `peep` wrote or accepted."""
    table = Table()
    costs: Costs = {}
    log: list[str] = []
    for line in text.splitlines():
        word, _, rest = line.partition(" ")
        if word == "entry":
            table.entries.append(Entry(costs=costs))
        elif word == "end":
            break
        elif not table.entries:
            (table.states if word == "state" else table.head).append(line)
            if word == "costs":
                costs = dict(zip(COSTED, map(int, rest.split())))
        elif word == "left":
            table.entries[-1].left.append(rest)
        elif word == "right":
            table.entries[-1].right.append(rest)
        elif word == "mask":
            table.entries[-1].mask = frozenset(rest.split())
        elif word == "family":
            place, number, low, high = map(int, rest.split())
            if not 1 <= place <= len(table.entries):
                raise TableError(f"a family of entry {place}, which isn't there")
            table.families.append(Family(table.entries[place - 1], number, low, high))
        elif word == "proof":
            log = (table.families or table.entries)[-1].proof
        elif word == "open":
            log = []
            table.entries[-1].opens.append((int(rest), log))
        else:
            log.append(line)
    return table


def filtered(table: Table, most_bytes: int = 100_000) -> Table:
    """The table with only the entries that remove an instruction (with costs: lower the cost), aren't covered by another or by a family, and have at most
    `most_bytes` of text, since each run checks each proof; with the families of these that no other covers, and the entries that they raise."""
    shorter = [entry for entry in table.entries if entry.is_shorter() and len(entry.text()) <= most_bytes]
    takes = {id(entry) for entry in shorter}
    families = _uncovered([family for family in table.families if id(family.entry) in takes and family.width() > 1 and len(family.text(0)) <= most_bytes])
    raised = {id(family.entry) for family in families}
    by_left: dict[tuple[str, ...], list[Entry]] = {}
    for entry in shorter:
        by_left.setdefault(tuple(entry.left), []).append(entry)
    by_shape: dict[tuple[str, ...], list[Family]] = {}
    for family in families:
        by_shape.setdefault(_shape(family.entry.left), []).append(family)
    kept = [
        entry
        for entry in shorter
        if id(entry) in raised
        or not any(other.covers(entry) for other in by_left[tuple(entry.left)])
        and not any(family.covers_entry(entry) for family in by_shape.get(_shape(entry.left), ()))
    ]
    return Table(table.head, table.states, kept, families)


def _shape(left: list[str]) -> tuple[str, ...]:
    """A left side with `?` for each 8-bit operand."""
    return tuple(IN_BYTES.sub(r"\1?", line) for line in left)


def _uncovered(families: list[Family]) -> list[Family]:
    """The families that no other covers, and of those that do the same only the first."""
    by_pattern: dict[tuple[str, ...], list[Family]] = {}
    for family in families:
        by_pattern.setdefault(family.pattern(), []).append(family)
    kept: list[Family] = []
    for family in families:
        others = by_pattern[family.pattern()]
        first = next(other for other in others if other is family or other.is_as(family))
        if first is family and not any(other.covers(family) for other in others):
            kept.append(family)
    return kept


def merged(tables: Iterable[Table]) -> Table:
    """One table of several that were learnt with the same options: the states of all, for each left side and mask the entry with the shortest right side (with
    costs: the cheapest), and the families with the entries that they raise. It has the latest version of the given tables.

    A state of one table may tell from the left side a sequence that an entry of another lists as open; `drop_told` removes it from that list."""
    out = Table()
    best: dict[tuple[tuple[str, ...], frozenset[str]], Entry] = {}
    raised: dict[tuple[tuple[str, ...], tuple[str, ...], frozenset[str]], Entry] = {}
    for table in tables:
        head = table.head
        if out.head:
            version = max(int(one[0].split()[1]) for one in (head, out.head))
            head, out.head = in_version(head, version), in_version(out.head, version)
            if head != out.head:
                raise TableError("tables of different options: " + "; ".join(sorted(set(head) ^ set(out.head))))
        out.head = head
        known = set(out.states)
        out.states += [state for state in table.states if state not in known]
        for entry in table.entries:
            key = (tuple(entry.left), entry.mask)
            if key not in best or entry.rank() < best[key].rank():
                best[key] = entry
        for family in table.families:
            entry = raised.setdefault((tuple(family.entry.left), tuple(family.entry.right), family.entry.mask), family.entry)
            out.families.append(Family(entry, family.number, family.low, family.high, family.proof))
    for (left, right, mask), entry in raised.items():
        if tuple(best[left, mask].right) == right:
            best[left, mask] = entry
    chosen = {id(entry): entry for entry in [*best.values(), *raised.values()]}
    out.entries = sorted(chosen.values(), key=lambda entry: (-entry.gain(), -len(entry.mask)))
    return out


def drop_told(table: Table, refusal: str) -> bool:
    """Drops the open sequence that the audit refused, and returns whether its refusal names one."""
    found = re.search(r"refused entry (\d+) 5 (\d+)", refusal)
    if found is None:
        return False
    entry = table.entries[int(found[1]) - 1]
    entry.opens = [(number, log) for number, log in entry.opens if number != int(found[2])]
    return True


def write_table(path: str | os.PathLike[str], table: Table) -> None:
    """Writes a table's text."""
    write_text(path, table.text())
