"""Rewrites the functions of a unit by the given tables and by tables learnt from the unit itself, in turn, until none replaces anything."""

from __future__ import annotations

import os
import re
from collections import Counter
from collections.abc import Callable, Iterable

from .choice import LONGEST, Shelf, keys_in
from .files import lines_of, read_text, write_text
from .listing import LABEL, Function, statement
from .program import KINDS, Program, ProgramError, Refused, RefusedLine
from .splice import Shown, parts, shown, take_back
from .tables import filtered, read_table, write_table

# the options with which tables are learnt from the unit, in turn: a budget of 1,000 finds nearly all that one of 20,000 does, in a fraction of the time
LEARNING = [
    "--regs 4 --left 3 --budget 1000 --pool own",
    "--regs 4 --left 3 --budget 1000 --pool derived",
    "--regs 2 --left 4 --budget 1000 --pool 0,1,255",
    "--regs 1 --left 4 --budget 1000",
]
POOL_SIZE = 16
DERIVED = 6
USUAL = [255, 16, 24, 31, 2, 4, 8, 3]
IN_WINDOWS = (
    r"(adds|subs|movs|cmp|lsls|lsrs|asrs|ands|eors|adcs|sbcs|rors|tst|rsbs|negs|cmn|orrs|muls|bics|mvns|mov|add|[su]xt[bh]|rev|rev16|revsh) ((?:r[0-7](?:, )?)+)(?:#(\w+))?$"
)


class Told:
    """The result of rewriting the functions of a unit: how many windows were replaced, and notes for the report."""

    def __init__(self) -> None:
        self.replaced = 0
        self.notes: list[str] = []


def runs_of_numbers(lines: Iterable[str]) -> list[list[int | None]]:
    """For each run of two or more instructions that windows may contain, their numbers, None for an instruction without one."""
    runs: list[list[int | None]] = [[]]
    in_windows = re.compile(IN_WINDOWS)
    for line in lines:
        text = statement(line)
        if LABEL.match(line) or (text and not text.startswith(".") and not in_windows.match(text)):
            runs.append([])
        elif found := in_windows.match(text):
            runs[-1].append(int(found[3], 0) if found[3] and re.fullmatch(r"\d+|0x[0-9a-f]+", found[3]) else None)
    return [run for run in runs if len(run) > 1]


def pool(lines: Iterable[str], derived: bool) -> str:
    """Numbers for `--pool`: 0, 1 and the most frequent ones in windows; if `derived`, the last six are instead sums and differences of nearby numbers, and
    32 minus either."""
    runs = runs_of_numbers(lines)
    own: Counter[int] = Counter(number for run in runs for number in run if number is not None and number < 256)
    made: Counter[int] = Counter()
    for run in runs:
        for at, one in enumerate(run):
            for other in run[at + 1 : at + 3]:
                if one is not None and other is not None:
                    made.update(number for number in (one + other, one - other, other - one, 32 - one, 32 - other) if 0 <= number < 256)
    order = [0, 1, *(number for number, _ in sorted(own.items(), key=lambda item: (-item[1], item[0])) if number > 1)]
    order += [number for number in USUAL if number not in order]
    if derived:
        order = order[: POOL_SIZE - DERIVED]
        order += [number for number, _ in sorted(made.items(), key=lambda item: (-item[1], item[0])) if number not in order]
    return ",".join(map(str, sorted(order[:POOL_SIZE])))


class Rewriter:
    """Rewrites functions by tables, and by tables that `peep` learns with the options `learning`. `work` is the folder for temporary files."""

    def __init__(self, program: Program, tables: list[str], learning: list[str], work: str | os.PathLike[str]) -> None:
        self.program = program
        self.tables = tables
        self.learning = learning
        self.work = work
        self.shelves: dict[str, Shelf] = {}
        self.keys: set[str] | None = None
        """The keys of the current listing, once they are needed."""
        self.is_read = False
        """Whether `peep` has accepted the lines of the listing."""
        self.told = Told()

    def rewrite(self, functions: list[Function]) -> Told:
        """Rewrites the functions that aren't left out yet, and leaves out those with a line that `peep` refuses."""
        for part in parts(functions):
            self._rewrite_part(part)
        return self.told

    def _file(self, name: str) -> str:
        return os.path.join(self.work, name)

    def _rewrite_part(self, functions: list[Function]) -> None:
        listing = self._file("shown.s")
        given = self._write(functions, listing)
        self.is_read = False
        try:
            replaced = self._steps(listing)
        except RefusedLine as refused:
            given = self._without_refused(functions, given, refused, listing)
            self.is_read = True
            replaced = self._steps(listing) if given.functions else 0
        if replaced:
            take_back(given, read_text(listing))
        else:
            for function in given.functions:
                function.new = function.lines
        self.told.replaced += replaced

    def _write(self, functions: list[Function], listing: str) -> Shown:
        given = shown([function for function in functions if function.why is None])
        write_text(listing, given.text())
        self.keys = None
        return given

    def _without_refused(self, functions: list[Function], given: Shown, refused: RefusedLine | None, listing: str) -> Shown:
        """Leaves out each function with a refused line. These are found with a table without entries, which needs no audit."""
        bare = self._file("bare.peep")
        write_text(bare, self._shelf(self.tables[0]).text([]))
        while refused is not None:
            owner = given.owner(refused.line)
            if owner is None:
                raise refused
            owner[0].leave(f"peep: {KINDS.get(refused.kind, 'refused')}", owner[1])
            given = self._write(functions, listing)
            if not given.functions:
                break
            refused = self._refused(bare, listing)
        return given

    def _refused(self, table: str, listing: str) -> RefusedLine | None:
        try:
            self.program.rewrite(table, listing, self._file("tried.s"))
        except RefusedLine as refused:
            return refused
        return None

    def _steps(self, listing: str) -> int:
        """Takes the steps (one for each table, then for each set of options) in turn, until none has anything more to replace."""
        steps: list[Callable[[str], int]] = [self._by_shipped(table) for table in self.tables]
        steps += [self._by_learning(options) for options in self.learning]
        replaced, quiet, turn = 0, 0, 0
        while steps and quiet < len(steps):
            now = steps[turn % len(steps)](listing)
            turn += 1
            # a step finds nothing more in what it has just rewritten
            quiet = quiet + 1 if now == 0 else 1
            replaced += now
        return replaced

    def _shelf(self, table: str) -> Shelf:
        if table not in self.shelves:
            self.shelves[table] = Shelf(read_text(table))
        return self.shelves[table]

    def _by_shipped(self, table: str) -> Callable[[str], int]:
        """A step that rewrites by the entries of a table whose left sides may occur in the listing, again while replacements make more of them occur. `peep` is
        run once even if none does, to find the lines that it refuses."""

        def step(listing: str) -> int:
            shelf, chosen = self._shelf(table), self._file("chosen.peep")
            if not shelf.is_table:
                return self._rewritten(table, listing)
            tried: set[int] = set()
            replaced = 0
            while True:
                places = shelf.fitting(self._keys(listing))
                if self.is_read and tried.issuperset(places):
                    return replaced
                tried.update(places)
                write_text(chosen, shelf.text(places))
                replaced += self._rewritten(chosen, listing)
                self.is_read = True

        return step

    def _rewritten(self, table: str, listing: str) -> int:
        """Rewrites a listing, and returns how many windows were replaced."""
        replaced = self.program.rewrite(table, listing, listing)
        if replaced:
            self.keys = None
        return replaced

    def _keys(self, listing: str) -> set[str]:
        """The keys of a listing's windows."""
        if self.keys is None:
            self.keys = keys_in(lines_of(read_text(listing)), LONGEST)
        return self.keys

    def _by_learning(self, options: str) -> Callable[[str], int]:
        def step(listing: str) -> int:
            lines = lines_of(read_text(listing))
            words = [pool(lines, word == "derived") if word in ("own", "derived") else word for word in options.split()]
            learnt = self._file("learnt.peep")
            try:
                self.program.learn(listing, learnt, words)
            except RefusedLine:
                raise
            except (Refused, ProgramError) as error:
                self.told.notes.append(str(error))
                return 0
            table = filtered(read_table(read_text(learnt)))
            if not table.entries:
                return 0
            write_table(learnt, table)
            return self._rewritten(learnt, listing)

        return step
