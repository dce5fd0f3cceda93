"""Builds of the firmware in `examples/` with make and cmake, gcc and clang, linked and run in an emulator before and after rewriting."""

import subprocess
import tempfile
import unittest
from pathlib import Path

from . import CORE, DRIVER, TOP, lacks, lacks_program, program, run
from peep_cc import report
from peep_cc.tables import filtered, read_table, write_table

EXAMPLES = TOP / "examples"
UNITS = ["vectors", "fixed", "states", "text", "uart", "main"]
# no loops turned into calls of memset, which would make memset call itself
WORDS = [*CORE, "-ffreestanding", "-fno-jump-tables"]
FOR_GCC = ["-fno-tree-loop-distribute-patterns"]
FOR_CLANG = ["--target=arm-none-eabi", "-fno-builtin"]
# the function that clang calls to clear an array
RUNTIME = """\
void __aeabi_memclr4(volatile char *at, unsigned count) { while (count--) *at++ = 0; }
"""
MAKEFILE = """\
OBJECTS = vectors.o fixed.o states.o text.o uart.o main.o runtime.o
CFLAGS = {words} -MMD
VPATH = {examples}
firmware: $(OBJECTS)
\tarm-none-eabi-ld -T {examples}/link.ld -e reset $(OBJECTS) {libgcc} -o $@
-include *.d
"""
CMAKE = """\
cmake_minimum_required(VERSION 3.13)
set(CMAKE_SYSTEM_NAME Generic)
set(CMAKE_TRY_COMPILE_TARGET_TYPE STATIC_LIBRARY)
project(firmware C)
set(CMAKE_EXECUTABLE_SUFFIX_C "")
add_compile_options({words})
add_executable(firmware {sources})
target_link_options(firmware PRIVATE -nostartfiles -T {examples}/link.ld -Wl,-e,reset {core})
"""
WITHOUT_PROGRAM = lacks_program()
LINE = b"80Ff7fFe\n"


def emulated(image: Path, folder: Path) -> bytes:
    """The firmware's output on an emulated micro:bit. Its input line is sent once its prompt appears; it ends the emulator itself."""
    words = ["qemu-system-arm", "-M", "microbit", "-nographic", "-no-reboot", "-kernel", str(image)]
    with subprocess.Popen(words, cwd=folder, stdin=subprocess.PIPE, stdout=subprocess.PIPE, stderr=subprocess.DEVNULL) as emulator:
        assert emulator.stdin and emulator.stdout
        first = emulator.stdout.read(1)
        emulator.stdin.write(LINE)
        emulator.stdin.flush()
        try:
            rest, _ = emulator.communicate(timeout=120)
        except subprocess.TimeoutExpired:
            emulator.kill()
            raise
    return first + rest


class Builds(unittest.TestCase):
    def setUp(self) -> None:
        made = tempfile.TemporaryDirectory()
        self.addCleanup(made.cleanup)
        self.folder = Path(made.name)
        # the firmware's own table without its needless entries, which needn't be audited then
        write_table(self.folder / "firmware.peep", filtered(read_table((EXAMPLES / "firmware.peep").read_text())))

    def settings(self) -> dict[str, str]:
        return {"PEEP": str(program()), "PEEP_TABLES": str(self.folder / "firmware.peep")}

    def check_image(self, elf: Path) -> None:
        run("arm-none-eabi-objcopy", "-O", "binary", elf, "image", folder=self.folder)
        self.assertEqual(emulated(self.folder / "image", self.folder), (EXAMPLES / "firmware.out").read_bytes())

    def made(self, compiler: str | Path, *words: str, **variables: str) -> list[report.Facts]:
        libgcc = run("arm-none-eabi-gcc", *CORE, "-print-libgcc-file-name", folder=self.folder).stdout.strip()
        (self.folder / "runtime.c").write_text(RUNTIME)
        (self.folder / "Makefile").write_text(MAKEFILE.format(words=" ".join([*WORDS, *words]), examples=EXAMPLES, libgcc=libgcc))
        for old in [*self.folder.glob("*.o"), *self.folder.glob("firmware")]:
            old.unlink()
        ran = run("make", "-j2", f"CC={compiler}", folder=self.folder, **variables)
        self.assertEqual(ran.returncode, 0, ran.stderr)
        self.check_image(self.folder / "firmware")
        log = self.folder / "peep-cc.log"
        return report.read_logs([log]) if log.exists() else []

    def before_and_after(self, *words: str, by: str = "arm-none-eabi-gcc") -> list[report.Facts]:
        self.made(by, *words)
        facts = self.made(DRIVER / "peep-cc", *words, PEEP_CC=by, **self.settings())
        self.assertEqual(len(facts), len(UNITS) + 1)
        self.assertEqual([one.error for one in facts if one.error], [])
        self.assertTrue(all(one.after <= one.before for one in facts))
        self.assertGreater(sum(one.handed for one in facts), 15)
        return facts

    needs = unittest.skipIf(
        reason := WITHOUT_PROGRAM or lacks("make", "arm-none-eabi-gcc", "arm-none-eabi-ld", "qemu-system-arm"), reason or ""
    )

    @needs
    def test_gcc_for_size(self) -> None:
        facts = self.before_and_after("-Os", *FOR_GCC)
        self.assertGreater(sum(one.saved() for one in facts), 0)

    @needs
    def test_gcc_for_size_with_debug_information(self) -> None:
        facts = self.before_and_after("-Os", "-g", *FOR_GCC)
        self.assertGreater(sum(one.saved() for one in facts), 0)

    @needs
    def test_gcc_for_speed(self) -> None:
        self.before_and_after("-O2", "-ffunction-sections", *FOR_GCC)

    @needs
    @unittest.skipIf(reason := lacks("clang"), reason or "")
    def test_clang(self) -> None:
        self.before_and_after("-Os", *FOR_CLANG, by="clang")

    @unittest.skipIf(reason := WITHOUT_PROGRAM or lacks("cmake", "make", "arm-none-eabi-gcc", "qemu-system-arm"), reason or "")
    def test_cmake(self) -> None:
        sources = " ".join(str(EXAMPLES / f"{unit}.c") for unit in UNITS)
        words = " ".join([*WORDS, "-Os", *FOR_GCC])
        (self.folder / "CMakeLists.txt").write_text(CMAKE.format(words=words, sources=sources, examples=EXAMPLES, core=" ".join(CORE)))
        for compiler in ("arm-none-eabi-gcc", DRIVER / "peep-cc"):
            build = f"build-{Path(compiler).name}"
            ran = run("cmake", "-G", "Unix Makefiles", "-S", ".", "-B", build, f"-DCMAKE_C_COMPILER={compiler}", folder=self.folder, **self.settings())
            self.assertEqual(ran.returncode, 0, ran.stderr)
            ran = run("cmake", "--build", build, folder=self.folder, **self.settings())
            self.assertEqual(ran.returncode, 0, ran.stdout + ran.stderr)
            self.check_image(self.folder / build / "firmware")
        facts = report.read_logs(report.logs_below(self.folder))
        self.assertGreater(sum(one.saved() for one in facts), 0)


def setUpModule() -> None:
    for missing in filter(None, [WITHOUT_PROGRAM, lacks("make"), lacks("cmake"), lacks("arm-none-eabi-gcc"), lacks("clang"), lacks("qemu-system-arm")]):
        print(f"driver's tests: {missing}, so builds that want it are left out")
