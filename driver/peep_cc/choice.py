"""Selects the entries and families of a table whose left sides may occur in a listing, so that only these are audited and not the whole table.

Left sides are compared up to the names of registers, as `peep` does, but only roughly: an entry too many costs an audit, a missed one only a saving.
"""

from __future__ import annotations

from collections.abc import Iterable

# the instructions that a window may contain
MNEMONICS = set(
    "adds subs movs cmp lsls lsrs asrs ands eors adcs sbcs rors tst rsbs negs cmn orrs muls bics mvns mov add uxtb uxth sxtb sxth rev rev16 revsh".split()
)
# those of them whose number has 8 bits if they name one register
IN_BYTES = {"movs", "cmp", "adds", "subs"}
LONGEST = 5
"""The most instructions that a left side has."""
BEGIN, FAMILY, END = "\nentry\n", "\nfamily ", "end\n"

Shape = tuple[str, list[str], int | None]
"""An instruction: its mnemonic, with its number if that isn't 8-bit; its registers, each once, as `adds r0, r0, #1` is `adds r0, #1`; its 8-bit number."""
Keys = dict[str, set[tuple[int, ...]]]
"""By key, the lists of 8-bit numbers of the windows with that key. Windows that differ only in register names and 8-bit numbers have the same key."""


def shape(words: list[str]) -> Shape | None:
    """The shape of an instruction, or None if a window can't contain it."""
    mnemonic = words[0]
    if mnemonic not in MNEMONICS:
        return None
    if mnemonic == "negs":
        mnemonic, words = "rsbs", [*words, "#0"]
    registers: list[str] = []
    number: int | None = None
    for word in words[1:]:
        if word[0] == "#":
            try:
                number = int(word[1:], 0)
            except ValueError:
                return None
        elif (name := word.rstrip(",")) not in registers:
            registers.append(name)
    if number is None:
        return mnemonic, registers, None
    if mnemonic in IN_BYTES and len(registers) == 1:
        return mnemonic + "#", registers, number
    return f"{mnemonic}#{number}", registers, None


def key(shapes: list[Shape]) -> tuple[str, tuple[int, ...]]:
    """A window's key and its 8-bit numbers."""
    names: dict[str, str] = {}
    parts = [word + ".".join(["", *(names.setdefault(name, str(len(names))) for name in registers)]) for word, registers, _ in shapes]
    return " ".join(parts), tuple(number for _, _, number in shapes if number is not None)


def keys_in(lines: Iterable[str], longest: int) -> Keys:
    """The keys of a listing's windows of at most `longest` instructions."""
    found: Keys = {}
    run: list[Shape] = []
    for line in lines:
        words = line.partition("@")[0].split()
        if not words or words[0][0] == "." and words[0][-1] != ":":
            continue
        now = shape(words)
        if now is None:
            run = []
            continue
        run = [*run[max(len(run) + 1 - longest, 0) :], now]
        for at in range(len(run)):
            word, numbers = key(run[at:])
            found.setdefault(word, set()).add(numbers)
    return found


class Shelf:
    """A table from which entries and families are selected. Families are numbered after the entries."""

    def __init__(self, text: str) -> None:
        self.is_table = text.startswith("peep ") and text.endswith(END)
        front, *self.families = text.removesuffix(END).rstrip("\n").split(FAMILY)
        self.head, *self.entries = front.split(BEGIN)
        self.keys = [_key_of(entry) for entry in self.entries]
        self.raised = [_raised_of(family) for family in self.families]
        if any(not 1 <= entry <= len(self.entries) for entry, *_ in self.raised):
            self.is_table = False

    def fitting(self, keys: Keys) -> list[int]:
        """The numbers, from 0, of the entries whose left sides have one of these keys, of the families that have one with a value of their range, and of the
        entries that these families raise."""
        families = [place for place in range(len(self.raised)) if self._has(place, keys)]
        needed = {self.raised[place][0] - 1 for place in families}
        entries = [place for place, (own, numbers) in enumerate(self.keys) if place in needed or numbers in keys.get(own, ())]
        return entries + [len(self.entries) + place for place in families]

    def _has(self, place: int, keys: Keys) -> bool:
        entry, number, low, high = self.raised[place]
        own, numbers = self.keys[entry - 1]
        for found in keys.get(own, ()):
            values = {value for value, at in zip(found, numbers) if at == number}
            if len(values) == 1 and low <= min(values) <= high and all(value == at or at == number for value, at in zip(found, numbers)):
                return True
        return False

    def text(self, places: Iterable[int]) -> str:
        """The table with only the entries and families of these numbers, which must include each family's entry."""
        count = len(self.entries)
        taken, families = (sorted(place for place in places if (place < count) == is_entry) for is_entry in (True, False))
        numbers = {place: number for number, place in enumerate(taken, 1)}
        front = BEGIN.join([self.head, *(self.entries[place] for place in taken)])
        behind = []
        for place in families:
            entry, _, rest = self.families[place - count].partition(" ")
            behind.append(f"{numbers[int(entry) - 1]} {rest}")
        return FAMILY.join([front, *behind]) + "\n" + END


def _key_of(entry: str) -> tuple[str, tuple[int, ...]]:
    """The key of an entry's left side and its 8-bit numbers."""
    lefts: list[Shape] = []
    for line in entry.split("\n", LONGEST)[:LONGEST]:
        if not line.startswith("left "):
            break
        lefts.append(shape(line.split()[1:]) or ("?", [], None))
    return key(lefts)


def _raised_of(family: str) -> tuple[int, int, int, int]:
    """A family's entry (counted from 1), its number, and its lowest and highest value; zeros if they can't be read."""
    try:
        entry, number, low, high = map(int, family.partition("\n")[0].split())
    except ValueError:
        return 0, 0, 0, 0
    return entry, number, low, high
