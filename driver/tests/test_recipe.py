"""The order of tables, the choice of entries, and the options for learning."""

import tempfile
import unittest
from pathlib import Path

from . import TOP
from peep_cc.choice import Shelf, keys_in
from peep_cc.listing import Function
from peep_cc.program import ProgramError, Refused, RefusedLine
from peep_cc.recipe import Rewriter, pool
from peep_cc.tables import read_table

MOVES = TOP / "examples" / "moves.peep"
RULES = TOP / "examples" / "rules.peep"

FAMILIES = """\
peep 3
scratch 0
entry
left mvns r0, r0
mask r0
proof
entry
left movs r0, #3
left adds r1, #1
left cmp r0, #3
mask r0 r1
proof
entry
left movs r0, #7
left adds r1, #1
left cmp r0, #7
mask r0 r1
proof
open 7
1 0
family 2 3 2 32
proof
1 0 2 0
end
"""
NAMES = {"mov r0, r0": "one", "mov r1, r1": "two"}


class Stand:
    """In place of the program: each run with a table reports the next of its counts and makes the given changes; a line with a given word is refused."""

    def __init__(self, counts: dict[str, list[int]], learnt: str = "", refused: str = "", changes: dict[str, str] | None = None) -> None:
        self.counts, self.learnt, self.refused, self.changes = counts, learnt, refused, changes or {}
        self.calls: list[str] = []
        self.tables: list[str] = []

    def rewrite(self, table: str, listing: str, out: str) -> int:
        text = Path(listing).read_text()
        self.tables.append(Path(table).read_text())
        # the entries of a chosen table show which table they are from
        sides = [" ".join(entry.left) for entry in read_table(self.tables[-1]).entries]
        name = NAMES.get(sides[0], "some") if sides and Path(table).stem == "chosen" else Path(table).stem
        self.calls.append(name)
        for number, line in enumerate(text.splitlines(), 1):
            if self.refused and self.refused in line:
                raise RefusedLine("peep rewrite: refused", number, 1)
        counts = self.counts.get(name, [])
        for old, new in self.changes.items():
            text = text.replace(old, new)
        Path(out).write_text(text)
        return counts.pop(0) if counts else 0

    def learn(self, listing: str, out: str, options: list[str]) -> None:
        self.calls.append(" ".join(options))
        if not self.learnt:
            raise Refused("peep learn: refused full 70000000")
        Path(out).write_text(self.learnt)


def function(name: str, *body: str) -> Function:
    return Function(name, 0, [f"{name}:\n", *(f"\t{line}\n" for line in body), f"\t.size {name}, .-{name}\n"])


class Recipe(unittest.TestCase):
    def setUp(self) -> None:
        made = tempfile.TemporaryDirectory()
        self.addCleanup(made.cleanup)
        self.work = Path(made.name)
        for side, name in NAMES.items():
            (self.work / f"{name}.peep").write_text(MOVES.read_text().replace("mov r0, r0", side))

    def rewriter(self, stand: Stand, learning: list[str], *tables: str) -> Rewriter:
        return Rewriter(stand, [str(self.work / f"{name}.peep") for name in tables], learning, self.work)  # type: ignore[arg-type]

    def test_one_table_is_taken_once(self) -> None:
        stand = Stand({"one": [3]})
        told = self.rewriter(stand, [], "one").rewrite([function("f", "mov r7, r7")])
        self.assertEqual((told.replaced, stand.calls), (3, ["one"]))

    def test_tables_are_taken_until_none_replaces(self) -> None:
        stand = Stand({"one": [3, 1, 0], "two": [2, 0]})
        told = self.rewriter(stand, [], "one", "two").rewrite([function("f", "mov r7, r7")])
        self.assertEqual((told.replaced, stand.calls), (6, ["one", "two", "one", "two"]))

    def test_learnt_table_is_cut_to_what_it_does(self) -> None:
        stand = Stand({}, RULES.read_text())
        self.rewriter(stand, ["--regs 1 --left 4"], "one").rewrite([function("f", "mov r7, r7")])
        self.assertEqual(stand.calls, ["one", "--regs 1 --left 4", "learnt"])
        entries = read_table(stand.tables[-1]).entries
        self.assertTrue(entries)
        self.assertTrue(all(entry.is_shorter() for entry in entries))

    def test_what_learning_refuses_is_told(self) -> None:
        told = self.rewriter(Stand({}), ["--regs 1"], "one").rewrite([function("f", "mov r7, r7")])
        self.assertEqual(told.notes, ["peep learn: refused full 70000000"])

    def test_functions_with_refused_lines_are_left_out(self) -> None:
        functions = [function("f", "mov r7, r7"), function("g", "nop", "wfx"), function("h", "nop"), function("i", "wfx")]
        stand = Stand({}, refused="wfx")
        self.rewriter(stand, [], "one").rewrite(functions)
        self.assertEqual([found.why for found in functions], [None, "peep: no line of the listing's grammar", None, "peep: no line of the listing's grammar"])
        self.assertEqual([found.at for found in functions], [None, 2, None, 1])
        self.assertEqual([found.new is not None for found in functions], [True, False, True, False])
        # refused lines are found with a table without entries, which needs no audit
        self.assertEqual(stand.calls, ["one", "bare", "bare", "one"])
        self.assertEqual(read_table(stand.tables[1]).entries, [])

    def test_nothing_that_can_be_shown(self) -> None:
        self.rewriter(stand := Stand({}, refused="wfx"), [], "one").rewrite([function("f", "wfx")])
        self.assertEqual(stand.calls, ["chosen"])

    def test_only_entries_whose_left_sides_may_stand_there_are_taken(self) -> None:
        stand = Stand({})
        self.rewriter(stand, [], "one", "two").rewrite([function("f", "lsls r3, r4, #24", "lsrs r3, r3, #24", "nop")])
        # the first run only finds the lines that are refused
        self.assertEqual(stand.calls, ["chosen"])
        self.assertEqual((read_table(stand.tables[0]).entries, read_table(stand.tables[0]).states), ([], read_table(MOVES.read_text()).states))

    def test_entries_are_chosen_again_behind_a_replacement(self) -> None:
        entry = "entry\nleft {}\nmask r0\nproof\n"
        (self.work / "one.peep").write_text("peep 1\n" + entry.format("mvns r0, r1\nleft adds r0, #1") + entry.format("rev r0, r0") + "end\n")
        stand = Stand({"some": [1]}, changes={"\tmvns r3, r4\n\tadds r3, #1\n": "\trev r3, r3\n"})
        self.rewriter(stand, [], "one").rewrite([function("f", "mvns r3, r4", "adds r3, #1")])
        self.assertEqual([[entry.left for entry in read_table(table).entries] for table in stand.tables], [[["mvns r0, r1", "adds r0, #1"]], [["rev r0, r0"]]])

    def test_keys_of_windows(self) -> None:
        lines = ["f:\n", "\tsubs\tr1, r1, #0x10\t@ tmp, x\n", "\t.loc 1 2 3\n", "@ a.c:3: y\n", "\tcmp\tr2, r1\n", ".L1:\n", "\tnegs\tr0, r1\n", "\tldr\tr0, [r1]\n", "\tmov\tr0, r9\n"]
        self.assertEqual(keys_in(lines, 3), {"subs#.0": {(16,)}, "cmp.0.1": {()}, "subs#.0 cmp.1.0": {(16,)}, "rsbs#0.0.1": {()}, "mov.0.1": {()}})
        self.assertEqual(keys_in(lines, 1), {"subs#.0": {(16,)}, "cmp.0.1": {()}, "rsbs#0.0.1": {()}, "mov.0.1": {()}})

    def test_numbers_of_8_bits_stand_apart(self) -> None:
        lines = ["f:", "\tmovs r0, #1", "\tadds r0, #2", "\tadds r0, r1, #3", "\tlsls r0, r0, #4", "\tmovs r0, #5"]
        self.assertEqual(keys_in(lines, 5)["movs#.0 adds#.0 adds#3.0.1 lsls#4.0 movs#.0"], {(1, 2, 5)})

    def test_left_sides_are_found_by_other_names_of_their_registers(self) -> None:
        entry = "entry\nleft subs r0, #1\nleft adds r1, r0, r1\nmask r0\nproof\n"
        shelf = Shelf("peep 1\n" + entry + "end\n")
        for code, places in (("subs r5, r5, #1\n\tadds r3, r5, r3", [0]), ("subs r5, #1\n\tadds r5, r3, r5", []), ("subs r5, #2\n\tadds r3, r5, r3", [])):
            self.assertEqual(shelf.fitting(keys_in([f"\t{line}\n" for line in code.split("\n\t")], 5)), places, code)

    def test_a_table_comes_back_from_its_entries(self) -> None:
        shelf = Shelf(RULES.read_text())
        self.assertTrue(shelf.is_table)
        self.assertEqual(shelf.text(range(len(shelf.entries))), RULES.read_text())
        self.assertFalse(Shelf("").is_table)

    def test_families_are_found_by_values_of_their_range(self) -> None:
        shelf = Shelf(FAMILIES)
        for code, places in (
            ("movs r4, #9\n\tadds r5, #1\n\tcmp r4, #9", [1, 3]),
            ("movs r4, #7\n\tadds r5, #1\n\tcmp r4, #7", [1, 2, 3]),
            ("movs r4, #7\n\tadds r5, r5, #1\n\tcmp r4, #7", [1, 2, 3]),
            ("movs r4, #1\n\tadds r5, #1\n\tcmp r4, #1", []),
            ("movs r4, #9\n\tadds r5, #1\n\tcmp r4, #8", []),
            ("movs r4, #9\n\tadds r5, #2\n\tcmp r4, #9", []),
            ("movs r4, #33\n\tadds r5, #1\n\tcmp r4, #33", []),
            ("mvns r4, r4", [0]),
        ):
            self.assertEqual(shelf.fitting(keys_in([f"\t{line}\n" for line in code.split("\n\t")], 5)), places, code)

    def test_a_family_comes_with_its_entry(self) -> None:
        shelf = Shelf(FAMILIES)
        chosen = read_table(shelf.text([1, 3]))
        self.assertEqual([entry.left for entry in chosen.entries], [["movs r0, #3", "adds r1, #1", "cmp r0, #3"]])
        self.assertEqual([(family.entry, family.number, family.low, family.high, family.proof) for family in chosen.families], [(chosen.entries[0], 3, 2, 32, ["1 0 2 0"])])
        self.assertEqual(shelf.text([0]), FAMILIES[: FAMILIES.index("entry\nleft movs r0, #3")] + "end\n")
        self.assertEqual(shelf.text(range(4)), FAMILIES)
        self.assertFalse(Shelf(FAMILIES.replace("family 2", "family 4")).is_table)
        self.assertFalse(Shelf(FAMILIES.replace("family 2 3", "family 2 x")).is_table)

    def test_refused_table(self) -> None:
        class Refuses(Stand):
            def rewrite(self, table: str, listing: str, out: str) -> int:
                raise ProgramError("peep rewrite: refused table 1")

        with self.assertRaises(ProgramError):
            self.rewriter(Refuses({}), [], "one").rewrite([function("f", "mov r7, r7")])

    def test_pool(self) -> None:
        lines = ["f:", "\tmovs\tr0, #200", "\tadds\tr0, r0, #7\t@ tmp", "\tbl\tg", "\tlsls\tr0, r0, #24", "\tlsrs\tr0, r0, #24", "\tmovs r1, #99", "\tpush {r4}", "\tmovs r2, #77"]
        self.assertEqual(pool(lines, derived=False), "0,1,2,3,4,7,8,16,24,31,99,200,255")
        self.assertEqual(pool(lines, derived=True), "0,1,2,7,8,16,24,25,31,48,75,99,123,193,200,255")

