"""Tables as text: covering, filtering, merging and raising."""

import re
import tempfile
import unittest
from pathlib import Path

from . import TOP, lacks_program, program, run
from peep_cc.program import Program, Refused
from peep_cc.raising import narrowed, raised
from peep_cc.tables import Entry, Family, Table, TableError, drop_told, filtered, merged, read_table


def entry(left: str, right: str, mask: str, proof: str = "") -> Entry:
    return Entry(left.split("; "), right.split("; ") if right else [], frozenset(mask.split()), proof.split("; ") if proof else [])


class Tables(unittest.TestCase):
    def test_text_comes_back(self) -> None:
        for path in sorted((TOP / "examples").glob("*.peep")):
            self.assertEqual(read_table(path.read_text()).text(), path.read_text(), path)

    def test_filtered(self) -> None:
        same, wide, narrow, other = entry("a; b", "c; d", "r0"), entry("a; b", "c", "r0 z"), entry("a; b", "c", "r0"), entry("e; f", "c", "r0")
        long = entry("g; h", "c", "r0", 1000 * "x")
        table = Table(["peep 1"], ["state 1"], [same, narrow, wide, other, long])
        self.assertEqual(filtered(table, 900).entries, [wide, other])
        self.assertEqual(filtered(table, 900).head, ["peep 1"])

    def test_wider_mask_with_a_longer_right_side_covers_nothing(self) -> None:
        table = Table([], [], [entry("a; b; c", "d; e", "r0 z"), entry("a; b; c", "d", "r0")])
        self.assertEqual(len(filtered(table).entries), 2)

    def test_merged(self) -> None:
        one = Table(["peep 1"], ["state 1", "state 2"], [entry("a; b; c", "d; e", "r0"), entry("f; g", "", "")])
        two = Table(["peep 1"], ["state 1", "state 3"], [entry("a; b; c", "d", "r0"), entry("h; i", "j", "r0 z")])
        both = merged([one, two])
        self.assertEqual(both.states, ["state 1", "state 2", "state 3"])
        self.assertEqual([(len(found.left), len(found.right)) for found in both.entries], [(3, 1), (2, 0), (2, 1)])
        with self.assertRaises(TableError):
            merged([one, Table(["peep 2"])])

    def test_open_name_that_a_state_tells_goes(self) -> None:
        table = Table([], [], [Entry(opens=[(4, ["1 2 0"]), (7, [])])])
        self.assertTrue(drop_told(table, "peep audit: refused entry 1 5 4"))
        self.assertEqual(table.entries[0].opens, [(7, [])])
        self.assertFalse(drop_told(table, "peep audit: refused entry 1 3"))


class Costs(unittest.TestCase):
    """Tables of version 4, in which `muls` costs 32 and each other instruction 1."""

    HEAD = "peep 4\npool 3\nscratch 0\ncosts" + 16 * " 1" + " 32" + 11 * " 1" + "\n"

    def table(self, *entries: tuple[str, str, str], head: str = HEAD) -> Table:
        return read_table(head + "".join(entry(*parts).text() for parts in entries) + "end\n")

    def test_filtered_keeps_what_lowers_the_cost(self) -> None:
        product, sums = "movs r0, #3; muls r1, r0, r1", "adds r0, r1, r1; adds r1, r0, r1"
        as_dear, gone = "muls r1, r1, r1; adds r1, #1", "muls r1, r1, r1"
        table = self.table((product, sums, "r1 n"), (product, as_dear, "r0 r1"), (product, sums, "r1"), (product, "lsls r1, r1, #3", "r1"), (sums, sums, "r1"), (product, gone, "n"))
        table.families.append(Family(table.entries[0], 3, 2, 3))
        self.assertEqual(filtered(table).entries, [table.entries[0], table.entries[3]])
        self.assertEqual(filtered(table).families, table.families)
        self.assertEqual(filtered(self.table((product, sums, "r1"), head="peep 3\npool 3\nscratch 0\n")).entries, [])

    def test_a_family_that_costs_more_covers_nothing(self) -> None:
        dear, cheap = entry("movs r0, #4; muls r1, r0, r1", "muls r1, r1, r1", "r1 n"), entry("movs r0, #3; muls r1, r0, r1", "adds r0, r1, r1; adds r1, r0, r1", "r1")
        table = read_table(self.HEAD + dear.text() + cheap.text() + "end\n")
        table.families.append(Family(table.entries[0], 4, 0, 255))
        self.assertEqual(filtered(table).entries, table.entries)

    def test_merged_takes_the_cheapest(self) -> None:
        left, mask = "movs r0, #3; muls r1, r0, r1", "r1"
        short, cheap = self.table((left, "muls r1, r1, r1", mask)), self.table((left, "adds r0, r1, r1; adds r1, r0, r1", mask), ("muls r0, r0, r0", "", ""))
        for tables in ([short, cheap], [cheap, short]):
            both = merged(tables)
            self.assertEqual([(found.left[0], len(found.right)) for found in both.entries], [("muls r0, r0, r0", 0), ("movs r0, #3", 2)])
            self.assertEqual(both.head, short.head)
        for head in (self.HEAD.replace("32", "31"), "peep 3\npool 3\nscratch 0\n"):
            with self.assertRaises(TableError):
                merged([short, self.table(head=head)])


class Families(unittest.TestCase):
    def test_text_comes_back(self) -> None:
        text = "peep 3\nscratch 0\nstate 1\nentry\nleft a\nmask r0\nproof\nentry\nleft b\nmask\nproof\n1 0 2 0\nopen 3\n4 0\nfamily 2 9 0 255\nproof\n5 0 1 0\n5 d 4 0\nfamily 1 8 8 9\nproof\nend\n"
        table = read_table(text)
        self.assertEqual(table.text(), text)
        self.assertEqual(table.families[0].proof, ["5 0 1 0", "5 d 4 0"])
        self.assertEqual(table.entries[1].opens, [(3, ["4 0"])])
        self.assertIs(table.families[0].entry, table.entries[1])
        with self.assertRaises(TableError):
            read_table("peep 3\nentry\nmask\nproof\nfamily 2 0 0 1\nproof\nend\n")

    def test_numbers_follow_the_entries(self) -> None:
        one, two = entry("movs r0, #1; a", "b", "r0"), entry("movs r0, #2; c", "d", "r0")
        table = Table(["peep 3"], [], [one, two], [Family(two, 2, 1, 9), Family(one, 1, 0, 3)])
        self.assertEqual(re.findall("family .*", table.text()), ["family 2 2 1 9", "family 1 1 0 3"])
        table.entries.reverse()
        self.assertEqual(re.findall("family .*", table.text()), ["family 1 2 1 9", "family 2 1 0 3"])
        table.entries = [two]
        table.families = table.families[:1]
        self.assertEqual(re.findall("family .*", table.text()), ["family 1 2 1 9"])

    def test_what_a_family_covers(self) -> None:
        own = entry("movs r0, #4; adds r1, #1; cmp r2, #4", "a; b", "r0 z")
        family = Family(own, 4, 2, 9)
        for left, mask, covered in (
            ("movs r0, #5; adds r1, #1; cmp r2, #5", "r0", True),
            ("movs r0, #1; adds r1, #1; cmp r2, #1", "r0", False),
            ("movs r0, #5; adds r1, #1; cmp r2, #6", "r0", False),
            ("movs r0, #5; adds r1, #5; cmp r2, #5", "r0", False),
            ("movs r0, #5; adds r1, #1; cmp r3, #5", "r0", False),
            ("movs r0, #5; adds r1, #1; cmp r2, #5", "r1", False),
            ("movs r0, #5; adds r1, #1", "r0", False),
        ):
            self.assertEqual(family.covers_entry(entry(left, "a; b", mask)), covered, left)
        self.assertFalse(family.covers_entry(entry("movs r0, #5; adds r1, #1; cmp r2, #5", "a", "r0")))
        self.assertFalse(family.covers_entry(own))

    def test_filtered(self) -> None:
        first, second, narrow = entry("movs r0, #4; x", "a", "r0 z"), entry("movs r0, #5; x", "b", "r0 z"), entry("movs r0, #4; x", "a", "r0")
        outside, other = entry("movs r0, #200; x", "c", "r0"), entry("movs r0, #1; y", "d", "r0")
        families = [Family(second, 5, 3, 9), Family(first, 4, 0, 99), Family(narrow, 4, 0, 50), Family(narrow, 4, 1, 120), Family(other, 1, 1, 1)]
        kept = filtered(Table(["peep 3"], [], [first, second, narrow, outside, other], families))
        self.assertEqual(kept.entries, [first, narrow, outside, other])
        self.assertEqual(kept.families, [families[1], families[3]])

    def test_of_families_that_do_the_same_the_first_stays(self) -> None:
        first, second = entry("movs r0, #4; x", "a", "r0"), entry("movs r0, #5; x", "b", "r0")
        kept = filtered(Table(["peep 3"], [], [first, second], [Family(first, 4, 0, 255), Family(second, 5, 0, 255)]))
        self.assertEqual((kept.entries, kept.families[0].number, len(kept.families)), ([first], 4, 1))

    def test_merged(self) -> None:
        old, same, other = entry("movs r0, #4; x", "a", "r0"), entry("movs r0, #4; x", "a", "r0"), entry("y; y", "", "r0")
        one, two = Table(["peep 1", "pool 4"], ["state 1"], [old, other]), Table(["peep 3", "pool 4", "scratch 0"], ["state 2"], [same], [Family(same, 4, 0, 9, ["1 0 2 0"])])
        for tables in ([one, two], [two, one]):
            both = merged(tables)
            self.assertEqual(both.head, ["peep 3", "pool 4", "scratch 0"])
            self.assertEqual([found.left for found in both.entries], [["y", "y"], ["movs r0, #4", "x"]])
            self.assertEqual(re.findall("family .*", both.text()), ["family 2 4 0 9"])
        self.assertEqual(merged([one, Table(["peep 2", "pool 4", "scratch 0"])]).head, ["peep 2", "pool 4", "scratch 0"])
        with self.assertRaises(TableError):
            merged([one, Table(["peep 2", "pool 4", "scratch 1"])])

    def test_merged_keeps_what_is_raised_beside_a_shorter_right_side(self) -> None:
        long, short = entry("movs r0, #4; x; y", "a; b", "r0"), entry("movs r0, #4; x; y", "a", "r0")
        both = merged([Table(["peep 3"], [], [long], [Family(long, 4, 0, 9)]), Table(["peep 3"], [], [short])])
        self.assertEqual(both.entries, [short, long])
        self.assertEqual(filtered(both).entries, [short, long])


class Raises:
    """In place of the program: accepts values from `low` to `high`, refuses naming the lowest other value, or none if the range is wider than `most`."""

    def __init__(self, low: int, high: int, most: int = 256) -> None:
        self.low, self.high, self.most = low, high, most
        self.asked: list[tuple[int, int]] = []

    def run(self, command: str, table: str, place: str, number: str, low: str, high: str, out: str) -> str:
        self.asked.append((int(low), int(high)))
        if int(number) == 7:
            raise Refused("peep generalise: refused symbol 1")
        if int(high) - int(low) >= self.most:
            raise Refused("peep generalise: refused symbol 3 1000")
        for value in range(int(low), int(high) + 1):
            if not self.low <= value <= self.high:
                raise Refused(f"peep generalise: refused symbol 2 {value}")
        made = read_table(Path(table).read_text())
        made.families.append(Family(made.entries[int(place) - 1], int(number), int(low), int(high), ["1 0 2 0"]))
        Path(out).write_text(made.text())
        return "families 1 lines 1\n"


class Raising(unittest.TestCase):
    def raised(self, program: Raises, *entries: Entry) -> Table:
        table = Table(["peep 1", "pool 4 5 7"], ["state 1"], list(entries))
        with tempfile.TemporaryDirectory() as name:
            return raised(table, program, name)

    def test_widest_range(self) -> None:
        program = Raises(2, 200)
        found = self.raised(program, entry("movs r0, #4; x", "a", "r0"), entry("movs r0, #9; x", "a", "r0"), entry("movs r0, #7; y", "a", "r0"))
        self.assertEqual([(family.number, family.low, family.high, family.proof) for family in found.families], [(4, 2, 200, ["1 0 2 0"])])
        # 9 isn't in the pool, but in the family's range
        self.assertEqual([found.left[0] for found in found.entries], ["movs r0, #4", "movs r0, #7"])
        self.assertEqual(found.head, ["peep 3", "pool 4 5 7", "scratch 0"])
        self.assertEqual(program.asked[:3], [(0, 255), (1, 255), (2, 255)])

    def test_a_second_time_nothing_comes_of_it(self) -> None:
        found = self.raised(Raises(2, 200), entry("movs r0, #4; x", "a", "r0"))
        with tempfile.TemporaryDirectory() as name:
            self.assertEqual(raised(found, Raises(2, 200), name).text(), found.text())

    def test_what_has_all_bytes_is_asked_once(self) -> None:
        program = Raises(0, 255)
        found = self.raised(program, entry("movs r0, #4; x", "a", "r0"), entry("movs r0, #5; x", "b", "r0"), entry("movs r0, #5; x", "b", "r1"))
        self.assertEqual(program.asked, [(0, 255), (0, 255)])
        self.assertEqual(len(found.families), 2)

    def test_one_value_is_no_family(self) -> None:
        found = self.raised(Raises(4, 4), entry("movs r0, #4; x", "a", "r0"), entry("movs r0, #4; y", "b; c", "r0"))
        self.assertEqual((found.families, found.head, len(found.entries)), ([], ["peep 1", "pool 4 5 7"], 1))

    def test_halves_where_the_budget_is_spent(self) -> None:
        self.assertEqual(narrowed(4, 0, 255, None), (2, 129))
        self.assertEqual((narrowed(4, 0, 255, 9), narrowed(4, 0, 255, 1)), ((0, 8), (2, 255)))
        (family,) = self.raised(Raises(0, 255, 100), entry("movs r0, #4; x", "a", "r0")).families
        self.assertEqual((family.low, family.high), (3, 66))

    @unittest.skipIf(reason := lacks_program(), reason or "")
    def test_the_program_raises(self) -> None:
        table = read_table((TOP / "examples" / "rules.peep").read_text())
        with tempfile.TemporaryDirectory() as name:
            found = raised(table, Program(str(program()), 60.0), name)
            self.assertTrue(found.families)
            path = Path(name) / "raised.peep"
            path.write_text(found.text())
            ran = run(program(), "audit", path, folder=TOP)
        self.assertEqual(ran.returncode, 0, ran.stdout)


class Shipped(unittest.TestCase):
    def test_each_entry_does_something(self) -> None:
        for path in sorted((TOP / "tables").glob("*.peep")):
            table = read_table(path.read_text())
            kept = filtered(table)
            self.assertEqual((kept.entries, kept.families), (table.entries, table.families), path)

    @unittest.skipIf(reason := lacks_program(), reason or "")
    def test_the_audit_accepts_them(self) -> None:
        for path in sorted((TOP / "tables").glob("*.peep")):
            ran = run(program(), "audit", path, folder=TOP)
            self.assertEqual(ran.returncode, 0, ran.stdout)
