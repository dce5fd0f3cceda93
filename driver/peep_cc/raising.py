"""Raises the entries of a table to families: for each 8-bit operand in the pool, the widest range of values found for which the rule holds."""

from __future__ import annotations

import os
import re
from collections.abc import Callable

from .files import read_text
from .program import Program, Refused
from .tables import VERSION_OF_FAMILIES, Entry, Family, Table, bytes_of, filtered, in_version, read_table, write_table

BYTE = 255


class Raiser:
    """Raises entries by `peep generalise`, each in a table of its own, since the whole table is audited before each family. `work` is for temporary files."""

    def __init__(self, program: Program, table: Table, work: str | os.PathLike[str]) -> None:
        self.program = program
        self.head = in_version(table.head, VERSION_OF_FAMILIES)
        self.states = table.states
        self.alone = os.path.join(work, "alone.peep")
        self.made = os.path.join(work, "made.peep")

    def widest(self, entry: Entry, number: int) -> Family | None:
        """A family with a wide range, if any: starts with all bytes, excludes each refused value, and halves the range where the solver exceeds its budget."""
        write_table(self.alone, Table(self.head, self.states, [entry]))
        low, high = 0, BYTE
        while low < high:
            try:
                self.program.run("generalise", self.alone, "1", str(number), str(low), str(high), self.made)
            except Refused as refused:
                found = re.search(r"refused symbol (\d)(?: (\d+))?", str(refused))
                if found is None:
                    raise
                if found[1] == "1":
                    return None
                low, high = narrowed(number, low, high, int(found[2]) if found[1] == "2" else None)
            else:
                (made,) = read_table(read_text(self.made)).families
                return Family(entry, number, low, high, made.proof)
        return None


def narrowed(number: int, low: int, high: int, refused: int | None) -> tuple[int, int]:
    """The part of a range on the number's side of a refused value; or, if no value was named, half the range around the number."""
    if refused is None:
        return number - (number - low) // 2, number + (high - number) // 2
    return (refused + 1, high) if refused < number else (low, refused - 1)


def raised(table: Table, program: Program, work: str | os.PathLike[str], tell: Callable[[str], None] = lambda line: None) -> Table:
    """The table with families of its shortening entries, without the entries that these cover. None is made where one for all bytes covers it."""
    raiser = Raiser(program, table, work)
    families = list(table.families)
    for place, entry in enumerate(table.entries, 1):
        if not entry.is_shorter():
            continue
        held = bytes_of(entry.left)
        for number in (number for number in table.pool() if number in held):
            wanted = Family(entry, number, 0, BYTE)
            if any(family.covers(wanted) or family.is_as(wanted) for family in families):
                continue
            family = raiser.widest(entry, number)
            if family is not None:
                families.append(family)
                tell(f"{place}: {'; '.join(entry.left)} -> {'; '.join(entry.right)}: {number} from {family.low} to {family.high}")
    head = raiser.head if families else table.head
    return filtered(Table(head, table.states, table.entries, families))
