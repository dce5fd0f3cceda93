"""The driver with programs in place of `peep` that do what `peep` does, or fail as it may."""

import errno
import os
import re
import tempfile
import unittest
from pathlib import Path
from unittest import mock

from . import CORE, DRIVER, lacks, run
from peep_cc import report, unit
from peep_cc.elf import text_size

COMPILER = "arm-none-eabi-gcc"
SOURCE = """\
int twice(int x)
{
    __asm__("nop");
    return 2 * x;
}

int never(int x)
{
    switch (x) { case 1: return 8; case 2: return 11; case 3: return 9; case 4: return 30; case 5: return 2; case 6: return 71; case 7: return 5; }
    __asm__("wfi");
    return 0;
}
"""
# its left side occurs in `twice`, so that the program is run
TABLE = "peep 1\nentry\nleft lsls r0, r0, #1\nmask r0\nproof\nend\n"
# removes each `nop`, and refuses `wfi` and an empty table
STANDS_IN = """\
#!/bin/sh
[ -s "$2" ] || { echo "refused table 1"; exit 1; }
at=$(grep -n "^.wfi" "$3" | head -n 1 | cut -d: -f1)
[ -z "$at" ] || { echo "refused listing $at 1"; exit 1; }
count=$(grep -c "^.nop" "$3")
grep -v "^.nop" "$3" > "$4.new"
mv "$4.new" "$4"
echo "replaced $count"
echo "instructions 2 1"
"""


@unittest.skipIf(lacks(COMPILER), lacks(COMPILER) or "")
class Driver(unittest.TestCase):
    def setUp(self) -> None:
        made = tempfile.TemporaryDirectory()
        self.addCleanup(made.cleanup)
        self.folder = Path(made.name)
        (self.folder / "a.c").write_text(SOURCE)
        (self.folder / "table.peep").write_text(TABLE)
        self.peep = self.script(STANDS_IN)
        self.words = [*CORE, "-Os", "-ffunction-sections", "-masm-syntax-unified", "-c", "a.c"]
        self.plain = self.compiled(COMPILER, "plain.o").read_bytes()

    def script(self, text: str) -> Path:
        path = self.folder / "stands_in"
        path.write_text(text)
        path.chmod(0o755)
        return path

    def compiled(self, compiler: str | Path, target: str, *more: str, **variables: str) -> Path:
        settings = {"PEEP": str(self.peep), "PEEP_TABLES": str(self.folder / "table.peep")} | variables
        ran = run(compiler, *self.words, *more, "-o", target, folder=self.folder, **settings)
        self.assertEqual((ran.returncode, ran.stdout, ran.stderr), (0, "", ""))
        return self.folder / target

    def told(self) -> report.Facts:
        (facts,) = report.read_logs([self.folder / "peep-cc.log"])
        return facts

    def stays_plain(self, **variables: str) -> str:
        """Compiles, and returns the logged reason why the object is the compiler's own."""
        self.assertEqual(self.compiled(DRIVER / "peep-cc", "a.o", **variables).read_bytes(), self.plain)
        facts = self.told()
        self.assertEqual(facts.saved(), 0)
        page = "\n".join(report.page([facts]))
        self.assertIn(f"plain object: {facts.error}", page)
        return str(facts.error)

    def test_smaller(self) -> None:
        target = self.compiled(DRIVER / "peep-cc", "a.o")
        self.assertEqual(text_size(target), text_size(self.folder / "plain.o") - 2)
        facts = self.told()
        self.assertEqual((facts.functions, facts.handed, facts.replaced, facts.saved()), (2, 1, 1, 2))
        (left,) = facts.left
        self.assertEqual((left.function, left.where), ("never", "a.c:10"))
        self.assertRegex(left.why, "peep: no line of the listing's grammar|a jump table")
        (replacement,) = facts.replacements
        self.assertEqual((replacement.function, replacement.where, replacement.old, replacement.new), ("twice", "a.c:3", ["nop"], []))

    def test_report(self) -> None:
        self.compiled(DRIVER / "peep-cc", "a.o")
        ran = run(DRIVER / "peep-cc", "--peep-report", folder=self.folder)
        self.assertIn("a.o: 1 of 2 functions handed over, 1 replaced", ran.stdout)
        self.assertIn("  a.c:3: twice: nop -> nothing\n", ran.stdout)
        self.assertIn("bytes saved (", ran.stdout)
        self.assertEqual(run(DRIVER / "peep-cc", "--peep-report", "nowhere", folder=self.folder).returncode, 1)

    def test_instructions_that_changed(self) -> None:
        old = ["subs r1, r1, #1", "lsrs r2, r2, #2", "cmp r1, #0", "bne .L3", "movs r0, r1", "ands r0, r2", "tst r1, r2", "beq .L4"]
        new = ["lsrs r2, r2, #2", "subs r1, #1", "bne .L3", "movs r0, r1", "ands r0, r2", "beq .L4"]
        self.assertEqual(unit.changes(old, new), [(0, 3, 0, 2), (6, 7, 5, 5)])
        self.assertEqual(unit.changes(old, old), [])

    def test_missing_program(self) -> None:
        self.assertIn("no program", self.stays_plain(PEEP=str(self.folder / "nowhere")))

    def test_missing_table(self) -> None:
        self.assertIn("no table", self.stays_plain(PEEP_TABLES="nowhere.peep"))

    def test_refused_table(self) -> None:
        (self.folder / "table.peep").write_text("")
        self.assertEqual(self.stays_plain(), "peep rewrite: refused table 1")

    def test_killed(self) -> None:
        self.peep = self.script("#!/bin/sh\nkill -9 $$\n")
        self.assertEqual(self.stays_plain(), "peep rewrite: ended by signal 9")

    def test_full_disk_for_peep(self) -> None:
        self.peep = self.script("#!/bin/sh\necho store >&2\nexit 3\n")
        self.assertEqual(self.stays_plain(), "peep rewrite: status 3, store")

    def test_slow(self) -> None:
        self.peep = self.script("#!/bin/sh\nexec sleep 60\n")
        self.assertEqual(self.stays_plain(PEEP_SECONDS="0.2"), "peep rewrite: took more than 0.2 s")

    def test_nonsense(self) -> None:
        self.peep = self.script('#!/bin/sh\necho "replaced 1"\necho nonsense > "$4"\n')
        self.assertIn("didn't come back", self.stays_plain())

    def test_listing_that_the_assembler_refuses(self) -> None:
        self.peep = self.script("#!/bin/sh\nsed 's/^.nop/\\tnonsense/' \"$3\" > \"$4.new\"\nmv \"$4.new\" \"$4\"\necho 'replaced 1'\n")
        self.assertIn("the assembler refuses", self.stays_plain())

    def test_larger(self) -> None:
        self.peep = self.script("#!/bin/sh\nsed 's/^.nop/\\tnop\\n\\tnop/' \"$3\" > \"$4.new\"\nmv \"$4.new\" \"$4\"\necho 'replaced 1'\n")
        self.assertEqual(self.compiled(DRIVER / "peep-cc", "a.o").read_bytes(), self.plain)
        self.assertIn("the object doesn't get smaller by what was replaced: alignment", self.told().notes)

    def test_settings_that_cannot_be_read(self) -> None:
        (self.folder / "peep-cc.toml").write_text("nonsense = 1\n")
        self.assertIn("no setting is called nonsense", self.stays_plain())

    def test_settings_of_the_file(self) -> None:
        (self.folder / "peep-cc.toml").write_text('log = "other.log"\nkeep = true\n')
        target = self.compiled(DRIVER / "peep-cc", "a.o")
        self.assertTrue((self.folder / "other.log").is_file())
        self.assertNotIn("\tnop", Path(f"{target}.peep.s").read_text())

    def test_full_disk_for_the_object(self) -> None:
        made, target = self.folder / "plain.o", self.folder / "target.o"
        target.write_bytes(b"as it was")
        with mock.patch("shutil.copyfile", side_effect=OSError(errno.ENOSPC, "No space left on device")), self.assertRaises(OSError):
            unit.put_in_place(made, str(target))
        self.assertEqual(target.read_bytes(), b"as it was")
        self.assertEqual([path.name for path in self.folder.iterdir() if ".peep-" in path.name], [])

    def test_log_that_cannot_be_written(self) -> None:
        ran = run(DRIVER / "peep-cc", *self.words, "-o", "a.o", folder=self.folder, PEEP=str(self.folder / "nowhere"), PEEP_LOG="/dev/full", PEEP_TABLES="table.peep")
        self.assertEqual(ran.returncode, 0)
        self.assertIn("No space left on device", ran.stderr)
        self.assertIn("no program", ran.stderr)
        self.assertEqual((self.folder / "a.o").read_bytes(), self.plain)

    def test_compiler_that_writes_no_listing(self) -> None:
        # as if there were no room for it
        compiler = self.folder / "compiler"
        compiler.write_text(f'#!/bin/sh\nfor word in "$@"; do [ "$word" = -S ] && {{ echo "No space left on device" >&2; exit 1; }}; done\nexec {COMPILER} "$@"\n')
        compiler.chmod(0o755)
        self.assertEqual(self.stays_plain(PEEP_CC=str(compiler)), "the way by a listing fails: No space left on device")

    def test_wrong_source(self) -> None:
        (self.folder / "a.c").write_text("int x = ;\n")
        plain, ours = (run(compiler, *self.words, folder=self.folder) for compiler in (COMPILER, DRIVER / "peep-cc"))
        self.assertEqual((ours.returncode, ours.stderr), (plain.returncode, plain.stderr))

    def test_words_that_are_the_compilers(self) -> None:
        for words in (["--version"], ["--help"], ["-dumpmachine"], ["-E", "a.c"], ["-print-libgcc-file-name"]):
            plain, ours = (run(compiler, *words, folder=self.folder) for compiler in (COMPILER, DRIVER / "peep-cc"))
            self.assertEqual((ours.returncode, ours.stdout), (plain.returncode, plain.stdout), words)

    def test_own_words(self) -> None:
        self.assertIn("PEEP_TABLES", run(DRIVER / "peep-cc", "--peep-help", folder=self.folder).stdout)
        self.assertIn("compiler", run(DRIVER / "peep-cc", "--peep-settings", folder=self.folder).stdout)
        self.assertEqual(run(DRIVER / "peep-cc", "--peep-nonsense", folder=self.folder).returncode, 2)

    def test_link_with_the_compilers_name(self) -> None:
        links = self.folder / "links"
        links.mkdir()
        (links / COMPILER).symlink_to(DRIVER / "peep-cc")
        target = self.compiled(links / COMPILER, "a.o", PATH=f"{links}{os.pathsep}{os.environ['PATH']}")
        self.assertLess(text_size(target), text_size(self.folder / "plain.o"))

    def test_what_stands_beside_the_object(self) -> None:
        (self.folder / "out").mkdir()
        self.compiled(DRIVER / "peep-cc", "out/b.o", "-MMD", "-fstack-usage", "-g")
        self.assertEqual((self.folder / "out" / "b.d").read_text().split()[:2], ["out/b.o:", "a.c"])
        self.assertIn("twice", (self.folder / "out" / "b.su").read_text())

    def test_listing_of_the_assembler_is_that_of_the_object(self) -> None:
        for peep, there in ((STANDS_IN, 0), ("#!/bin/sh\necho 'replaced 0'\n", 1)):
            self.peep = self.script(peep)
            self.compiled(DRIVER / "peep-cc", "a.o", "-Wa,-alms=a.lst")
            self.assertEqual(len(re.findall(r"\tnop", (self.folder / "a.lst").read_text())), there)

    def test_debug_information_of_a_plain_object_is_the_compilers(self) -> None:
        self.peep = self.script("#!/bin/sh\necho 'replaced 0'\n")
        for more in (["-g"], ["-g3", "-O2"], ["-ggdb", "-gdwarf-4"], ["-ffunction-sections", "-fdata-sections"]):
            plain = self.compiled(COMPILER, "a.o", *more).read_bytes()
            self.assertEqual(self.compiled(DRIVER / "peep-cc", "a.o", *more).read_bytes(), plain, more)

    def test_comments_of_any_bytes_and_length(self) -> None:
        # gcc puts each source line beside its instructions
        lines = SOURCE.encode().splitlines(keepends=True)
        for comment in (b"/* \xe9 */", "/* \u00e9\u2028\x0c */".encode(), b"/* " + 1200 * b"x" + b" */", b"/* @peep-cc 0 own */"):
            (self.folder / "a.c").write_bytes(b"".join([*lines[:2], lines[2].rstrip() + comment + b"\r\n", lines[3].rstrip() + comment + b"\n", *lines[4:]]))
            plain = text_size(self.compiled(COMPILER, "plain.o"))
            self.assertEqual(text_size(self.compiled(DRIVER / "peep-cc", "a.o")), plain - 2, comment[:20])
            self.assertIsNone(self.told().error)

    def test_folder_is_gone_behind_each_object(self) -> None:
        place = self.folder / "place"
        place.mkdir()
        for peep in (STANDS_IN, "#!/bin/sh\nkill -9 $$\n"):
            self.peep = self.script(peep)
            self.compiled(DRIVER / "peep-cc", "a.o", TMPDIR=str(place))
            self.assertEqual(list(place.iterdir()), [])

    def test_another_core_is_left_alone(self) -> None:
        self.words[0] = "-mcpu=cortex-m4"
        self.plain = self.compiled(COMPILER, "plain.o").read_bytes()
        self.assertEqual(self.stays_plain(), "not for Armv6-M")
