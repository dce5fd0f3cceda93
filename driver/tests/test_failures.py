"""Builds by make where a program or table is missing or fails, or a disk is full: they succeed, the objects are the compiler's own, the report says why."""

import os
import subprocess
import tempfile
import unittest
from pathlib import Path

from . import CORE, DRIVER, TOP, lacks, lacks_program, program, run
from .test_driver import COMPILER, SOURCE, STANDS_IN, TABLE
from peep_cc.elf import text_size

NAMES = ["one", "two"]
OBJECTS = [f"{name}.o" for name in NAMES]
# no temporary file between compiler and assembler, so that a full folder for such files doesn't make the build fail by itself
WORDS = [*CORE, "-Os", "-ffunction-sections", "-masm-syntax-unified", "-pipe"]
MAKEFILE = f"""\
CFLAGS = {" ".join(WORDS)}
OUT = .
all: {" ".join(f"$(OUT)/{name}" for name in OBJECTS)}
$(OUT)/%.o: %.c
\t$(CC) $(CFLAGS) -c $< -o $@
"""
NO_TOOLS = lacks("make", COMPILER)
# a temporary file system of a given size that only one command sees
ON_SMALL_DISK = ["unshare", "--map-root-user", "--mount", "sh", "-c", 'mount -t tmpfs -o size="$1" none "$2" && shift 2 && "$@"', "sh"]


def lacks_disk() -> str | None:
    """The message if no temporary file system can be mounted, otherwise None."""
    if lacks("unshare"):
        return lacks("unshare")
    with tempfile.TemporaryDirectory() as name:
        tried = subprocess.run([*ON_SMALL_DISK, "8k", name, "true"], capture_output=True)
    return None if tried.returncode == 0 else "no file system can be mounted here"


NO_DISK = NO_TOOLS or lacks_disk()


@unittest.skipIf(NO_TOOLS, NO_TOOLS or "")
class Failures(unittest.TestCase):
    def setUp(self) -> None:
        made = tempfile.TemporaryDirectory()
        self.addCleanup(made.cleanup)
        self.folder = Path(made.name)
        for name in NAMES:
            (self.folder / f"{name}.c").write_text(SOURCE.replace("twice", name))
        (self.folder / "Makefile").write_text(MAKEFILE)
        (self.folder / "table.peep").write_text(TABLE)
        self.disk = self.folder / "disk"
        self.disk.mkdir()
        self.peep = self.script(STANDS_IN)
        run("make", f"CC={COMPILER}", folder=self.folder)
        self.plain = self.taken()

    def script(self, text: str) -> Path:
        path = self.folder / "stands_in"
        path.write_text(text)
        path.chmod(0o755)
        return path

    def taken(self) -> list[bytes]:
        """Reads the objects and deletes them."""
        found = [(self.folder / name).read_bytes() for name in OBJECTS]
        for name in OBJECTS:
            (self.folder / name).unlink()
        return found

    def built(self, *before: str, **variables: str) -> str:
        """Builds with the driver, checks that this succeeds, and returns standard error."""
        settings = {"PEEP": str(self.peep), "PEEP_TABLES": "table.peep"} | variables
        ran = run(*before, "make", "-s", f"CC={DRIVER / 'peep-cc'}", folder=self.folder, **settings)
        self.assertEqual((ran.returncode, ran.stdout), (0, ""), ran.stderr)
        return ran.stderr

    def report(self) -> str:
        return run(DRIVER / "peep-cc", "--peep-report", folder=self.folder).stdout

    def stays_plain(self, why: str, *before: str, **variables: str) -> None:
        self.assertEqual(self.built(*before, **variables), "")
        page = self.report()
        self.assertIn(f"objects as the compiler made them: {why}", page)
        self.assertEqual(page.count(f"  plain object: {why}"), 2)
        self.assertEqual(self.taken(), self.plain)

    def test_where_nothing_fails(self) -> None:
        self.built()
        self.assertNotIn("as the compiler made them", self.report())
        self.assertTrue(all(len(object) < len(plain) for object, plain in zip(self.taken(), self.plain)))

    def test_missing_program(self) -> None:
        self.stays_plain("no program nowhere/peep", PEEP="nowhere/peep")

    def test_program_that_cannot_be_run(self) -> None:
        self.peep = self.script("\x7fELF of another machine\n")
        self.stays_plain(f"{self.peep}: Exec format error")

    def test_missing_table(self) -> None:
        self.stays_plain("no table", PEEP_TABLES="nowhere.peep")

    def test_refused_table(self) -> None:
        (self.folder / "table.peep").write_text("")
        self.stays_plain("peep rewrite: refused table 1")

    @unittest.skipIf(reason := lacks_program(), reason or "")
    def test_tables_that_the_program_refuses(self) -> None:
        for text, why in (
            ("nonsense\n", "refused table 1"),
            ((TOP / "examples" / "rules.peep").read_text().rpartition("end\n")[0], "refused table"),
            (wrong_table(), "refused entry 1"),
        ):
            (self.folder / "table.peep").write_text(text)
            self.stays_plain(f"peep rewrite: {why}", PEEP=str(program()))

    def test_killed(self) -> None:
        self.peep = self.script("#!/bin/sh\nkill -9 $$\n")
        self.stays_plain("peep rewrite: ended by signal 9")

    def test_killed_in_the_middle_of_its_work(self) -> None:
        self.peep = self.script('#!/bin/sh\nhead -c 100 "$3" > "$4"\nkill -15 $$\n')
        self.stays_plain("peep rewrite: ended by signal 15")

    def test_too_slow(self) -> None:
        self.peep = self.script("#!/bin/sh\nexec sleep 60\n")
        self.stays_plain("peep rewrite: took more than 0.1 s", PEEP_SECONDS="0.1")

    def test_full_disk_for_the_log(self) -> None:
        said = self.built(PEEP_LOG="/dev/full", PEEP="nowhere/peep")
        self.assertEqual(said.count("No space left on device"), 2)
        self.assertEqual(said.count("no program nowhere/peep"), 2)
        self.assertEqual(self.taken(), self.plain)

    @unittest.skipIf(NO_DISK, NO_DISK or "")
    def test_full_disk_for_the_folder_of_a_run(self) -> None:
        full = [*ON_SMALL_DISK, "4k", str(self.disk), "sh", "-c", 'echo full > "$TMPDIR/full" && exec "$@"', "sh"]
        self.stays_plain("the way by a listing fails: ", *full, TMPDIR=str(self.disk))

    @unittest.skipIf(NO_DISK, NO_DISK or "")
    def test_disks_of_all_sizes_for_the_folder_of_a_run(self) -> None:
        # from too small for the listing to large enough for everything
        before = 0
        for kilobytes in (4, 8, 12, 16, 20, 24, 32, 1000):
            self.built(*ON_SMALL_DISK, f"{kilobytes}k", str(self.disk), TMPDIR=str(self.disk))
            page, objects = self.report(), self.taken()
            plain = sum(object == plain for object, plain in zip(objects, self.plain))
            self.assertEqual(page.count("plain object: "), plain, page)
            self.assertLessEqual(before, 2 - plain)
            before = 2 - plain
        self.assertEqual(before, 2)

    @unittest.skipIf(NO_DISK, NO_DISK or "")
    def test_full_disk_for_the_object(self) -> None:
        # room for the compiler's two objects, but not for a third
        room = 4 * sum(-(-len(object) // 4096) for object in self.plain)
        out = self.disk / "out"
        copies = f'mkdir "$0" && "$@" OUT="$0" && cp "$0"/*.o "{self.folder}"'
        self.built(*ON_SMALL_DISK, f"{room}k", str(self.disk), "sh", "-c", copies, str(out))
        log = (self.folder / "peep-cc.log").read_text().splitlines()
        self.assertIn("No space left on device", log[1])
        self.assertEqual(self.taken()[1], self.plain[1])


def wrong_table() -> str:
    """A table with a wrong entry whose left side occurs in the compiled code."""
    moves = (TOP / "examples" / "moves.peep").read_text()
    return moves.replace("pool 24 255", "pool 1 24").replace("left mov r0, r0\nmask r0 n z c v", "left lsls r0, r0, #1\nmask r0")


def setUpModule() -> None:
    for missing in filter(None, [NO_TOOLS, NO_DISK if not NO_TOOLS else None]):
        print(f"driver's tests: {missing}, so builds that fail are left out")
