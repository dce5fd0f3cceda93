"""Which functions are taken from a listing, and how they are passed to `peep` and put back."""

import unittest

from . import DRIVER  # noqa: F401
from peep_cc.listing import Function, cut, files_of, functions_of, is_for_core, judge, origins
from peep_cc.splice import SpliceError, parts, shown, spliced, take_back

HEAD = "\t.cpu cortex-m0\n\t.arch armv6s-m\n\t.syntax unified\n\t.text\n"


def function(name: str, *body: str, section: str = "\t.text") -> str:
    """A function as gcc writes it."""
    lines = [section, "\t.align\t1", f"\t.global\t{name}", "\t.syntax unified", "\t.code\t16", "\t.thumb_func", f"\t.type\t{name}, %function", f"{name}:"]
    return "\n".join([*lines, *body, f"\t.size\t{name}, .-{name}"]) + "\n"


def judged(text: str) -> dict[str, Function]:
    functions, outside = functions_of((HEAD + text).splitlines(keepends=True))
    judge(functions, outside)
    return {found.name: found for found in functions}


def why(*body: str, behind: str = "") -> str | None:
    return judged(function("f", *body) + behind)["f"].why


class Cutting(unittest.TestCase):
    def test_sections(self) -> None:
        code, rest, counts = cut("a\n\t.section\t.rodata\nb\nc\n\t.text\nd\n\t.section\t.text.f,\"ax\"\ne\n\t.bss\nf\n")
        self.assertEqual("".join(code), "a\n\t.text\nd\n\t.section\t.text.f,\"ax\"\ne\n")
        self.assertEqual("".join(rest), "\t.section\t.rodata\nb\nc\n\t.bss\nf\n")
        self.assertEqual(dict(counts), {".rodata": 3, ".bss": 2})


class LeftOut(unittest.TestCase):
    def test_taken(self) -> None:
        self.assertIsNone(why("\tmovs\tr0, #1", "\tbx\tlr", "\t.align\t2", ".L3:", "\t.word\t.LANCHOR0"))

    def test_data_in_code(self) -> None:
        for line in ("\t.byte\t1", "\t.2byte\t3", "\t.short 4", "\t.ascii \"a\"", "\t.space 4", "\t.inst 0xbf00"):
            self.assertEqual(why("\tnop", line), "data in code", line)

    def test_jump_table(self) -> None:
        self.assertEqual(why("\tbl\t__gnu_thumb1_case_uqi", "\t.byte\t(.L4-.L5)/2"), "a jump table")

    def test_call_via(self) -> None:
        self.assertEqual(why("\tbl\t_call_via_r3"), "a call with a convention of its own")

    def test_old_syntax(self) -> None:
        self.assertEqual(why("\t.syntax divided", "\tnop", "\t.thumb", "\t.syntax unified"), "inline assembly in the old syntax")

    def test_change_of_section(self) -> None:
        for line in ("\t.section\t.text.unlikely,\"ax\",%progbits", "\t.pushsection .note", "\t.previous", "\t.subsection 1"):
            self.assertEqual(why("\tnop", line), "a change of section", line)

    def test_pc(self) -> None:
        for line in ("\tadd\tr3, pc", "\tmov\tpc, r3", "\tldr\tr0, [pc, #4]"):
            self.assertEqual(why(line), "pc as an operand", line)
        self.assertIsNone(why("\tpop\t{r4, pc}", "\tbl\tpc_of"))

    def test_special_register(self) -> None:
        self.assertEqual(why("\tmrs\tr0, msp"), "a special register")
        self.assertIsNone(why("\tmrs\tr0, PRIMASK"))

    def test_label_that_data_mentions(self) -> None:
        reached = ["\tbx\tlr", ".L4:", "\tnop", "\tbx\tlr"]
        self.assertEqual(why(*reached, behind="\t.section .rodata\n\t.word .L4\n"), "a label that something outside mentions")
        self.assertIsNone(why(*reached, behind="\t.section .debug_info,\"\",%progbits\n\t.4byte .L4\n"))

    def test_branch_between_functions(self) -> None:
        found = judged(function("f", "\tb\t.L9") + function("g", ".L9:", "\tbx\tlr"))
        self.assertEqual(found["f"].why, "a branch to a label outside")
        self.assertEqual(found["g"].why, "a label that something outside mentions")

    def test_directives(self) -> None:
        self.assertEqual(why("\t.thumb_set\tg, f"), "a directive in code")
        # an alias made by -fipa-icf is outside the function
        self.assertIsNone(why("\tbx\tlr", behind="\t.global g\n\t.thumb_set g,f\n"))

    def test_name_of_a_register(self) -> None:
        self.assertEqual(judged(function("sp", "\tbx\tlr"))["sp"].why, "a name that is a register's")

    def test_long_line(self) -> None:
        self.assertEqual(why("\tnop @ " + 1024 * "x"), "a line of more than 1,024 bytes")

    def test_ip_across_a_call(self) -> None:
        kept = ["\tmov\tip, r3", "\tbl\tg", "\tmov\tr0, ip", "\tbx\tlr"]
        with_g = function("g", "\tbx\tlr")
        self.assertEqual(judged(function("f", *kept) + with_g)["f"].why, "ip kept across a call of this file")
        self.assertIsNone(judged(function("f", *kept))["f"].why)
        self.assertIsNone(judged(function("f", "\tbl\tg", "\tmov\tip, r3", "\tmov\tr0, ip", "\tbx\tlr") + with_g)["f"].why)
        looped = [".L2:", "\tmov\tr0, ip", "\tmov\tip, r3", "\tbl\tg", "\tbne\t.L2", "\tbx\tlr"]
        self.assertEqual(judged(function("f", *looped) + with_g)["f"].why, "ip kept across a call of this file")

    def test_only_functions_of_this_syntax_and_in_code(self) -> None:
        self.assertEqual(judged(function("f", "\tbx\tlr", section="\t.section\t.data")), {})
        functions, _ = functions_of(function("f", "\tbx\tlr").replace("\t.syntax unified\n", "").splitlines(keepends=True))
        self.assertEqual(functions, [])
        self.assertIn("f", judged(function("f", "\tbx\tlr", section="\t.section\t.ramcode,\"ax\",%progbits")))

    def test_core(self) -> None:
        self.assertTrue(is_for_core(HEAD.splitlines()))
        self.assertFalse(is_for_core(HEAD.replace("cortex-m0", "cortex-m4").splitlines()))
        self.assertFalse(is_for_core(["\t.text"]))


class Splicing(unittest.TestCase):
    def setUp(self) -> None:
        self.text = HEAD + "".join(
            [
                function("f", "\t@ args = 0", ".LVL1:", "\t.loc 1 3 0", "\tmovs\tr0, #1", "\tb\t.L2", ".L2:", "\t.inst\t0xdeff"),
                "\t.section .rodata\n\t.word f\n",
                function("left", "\t.byte 1"),
                function("g", "\t.fnstart", "\t.save {r4, lr}", "\tpush\t{r4, lr}", "\tldr\tr0, .LCPI0_0", "\tpop\t{r4, pc}", "\t.p2align\t2", ".LCPI0_0:", "\t.long\t4660                            @ 0x1234", ".Lfunc_end0:", section="\t.section\t.text.g,\"ax\",%progbits"),
            ]
        )
        self.lines = self.text.splitlines(keepends=True)
        self.functions, outside = functions_of(self.lines)
        judge(self.functions, outside)

    def test_nothing_changes_where_nothing_is_replaced(self) -> None:
        (part,) = parts(self.functions)
        given = shown(part)
        take_back(given, given.text())
        self.assertEqual("".join(spliced(self.lines, self.functions)), self.text)

    def test_what_is_shown(self) -> None:
        text = shown(parts(self.functions)[0]).text()
        self.assertIn("\nf:\n", text)
        self.assertIn("\ng:\n", text)
        self.assertNotIn("left:", text)
        self.assertNotIn(".LVL1", text)
        self.assertNotIn(".fnstart", text)
        self.assertNotIn(".save", text)
        self.assertNotIn(".long", text)
        self.assertIn("\t.word\t4660 ", text)
        self.assertIn("\tb peep.trap ", text)
        self.assertEqual(text.count("\tb peep.end "), 2)

    def test_replaced_instructions(self) -> None:
        given = shown(parts(self.functions)[0])
        take_back(given, given.text().replace("\tmovs\tr0, #1\n", "\tmovs r0, #2\n"))
        self.assertEqual("".join(spliced(self.lines, self.functions)), self.text.replace("\tmovs\tr0, #1\n", "\tmovs r0, #2\n"))

    def test_owner_of_a_refused_line(self) -> None:
        given = shown(parts(self.functions)[0])
        at = given.lines.index("\tpush\t{r4, lr}\n") + 1
        owner = given.owner(at)
        assert owner is not None
        self.assertEqual((owner[0].name, owner[0].lines[owner[1]]), ("g", "\tpush\t{r4, lr}\n"))
        self.assertIsNone(given.owner(1))

    def test_what_does_not_come_back_is_told(self) -> None:
        given = shown(parts(self.functions)[0])
        for text in ("", given.text().replace("f:\n", "", 1), "".join(given.lines[:9]), given.text().replace("0 begin", "1 begin", 1)):
            with self.assertRaises(SpliceError):
                take_back(given, text)
        self.assertTrue(all(function.new is None for function in self.functions))

    def test_many_lines_go_in_parts(self) -> None:
        many = [Function(f"f{number}", 0, ["\tnop\n"] * 25_000) for number in range(5)] + [Function("long", 0, ["\tnop\n"] * 70_000)]
        self.assertEqual([len(part) for part in parts(many)], [2, 2, 1])
        self.assertEqual(many[-1].why, "more lines than a listing has")

    def test_lines_of_the_source(self) -> None:
        listing = ['\t.file 1 "a.c"\n', "f:\n", "\t.loc 1 3 0\n", "\tnop\n", "@ b.c:7:   x = 1;\n", "\tnop\n"]
        found = [str(origin) for origin in origins(Function("f", 1, listing[1:]), files_of(listing))]
        self.assertEqual(found, ["None", "a.c:3", "a.c:3", "b.c:7", "b.c:7"])
