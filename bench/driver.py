#!/usr/bin/env python3
"""Measures the driver on the source packages of `tables/packages.txt` that no table was learnt from: compiles each file with the compiler and with the
driver. Prints for each package what was passed to `peep` and saved, and both times, processor and clock. Audits the shipped tables first.

Use: bench/driver.py SOURCES [--jobs N] [--most N] [--use measure|learn] [--alone] WORD.., as bench/driver.py ~/sources --jobs 4 -Os -ffunction-sections

SOURCES is the folder with the unpacked packages (`tables/make.sh` fetches them). At most N files of each package are taken, evenly spread. With --alone the
compiler isn't run by itself, and no times are compared. The driver's settings apply, for example PEEP_LEARN=1. An object larger than the compiler's, or a file
that compiles only without the driver, is reported, and the status is then 1."""

from __future__ import annotations

import argparse
import os
import resource
import subprocess
import sys
import tempfile
import threading
import time
from concurrent.futures import ThreadPoolExecutor
from dataclasses import dataclass
from pathlib import Path

TOP = Path(__file__).resolve().parents[1]
sys.path[:0] = [str(TOP / "driver"), str(TOP / "tables")]

from listings import Package, packages  # noqa: E402
from peep_cc.elf import text_size  # noqa: E402
from peep_cc.program import Program, ProgramError  # noqa: E402
from peep_cc.report import Facts, read_logs, share  # noqa: E402
from peep_cc.settings import settings_for  # noqa: E402

ONE_AT_A_TIME = threading.Lock()
CORE = ["-mcpu=cortex-m0", "-mthumb"]


def spent() -> float:
    """The processor seconds used by this process and those that it waited for."""
    used = resource.getrusage(resource.RUSAGE_CHILDREN)
    return used.ru_utime + used.ru_stime


def audit_tables() -> None:
    """Audits the tables that the settings name."""
    settings = settings_for("peep-cc", str(Path.cwd()))
    if not settings.program:
        sys.exit("no program peep: PEEP names it, or ./peep builds it")
    for table in settings.tables:
        start = spent()
        try:
            said = " ".join(Program(settings.program, 3600.0).run("audit", table).split())
        except ProgramError as error:
            said = str(error)
        print(f"{Path(table).name}: {said}, {os.path.getsize(table)} bytes, {spent() - start:.3f} s of the processor")


@dataclass
class Times:
    """Seconds: processor time, user and system together, and clock time."""

    processor: float = 0.0
    clock: float = 0.0

    def add(self, other: Times) -> None:
        """Adds other times, possibly those of several threads."""
        with ONE_AT_A_TIME:
            self.processor += other.processor
            self.clock += other.clock


@dataclass
class Outcome:
    """The results for a package."""

    facts: list[Facts]
    without: Times
    with_driver: Times
    is_well: bool

    def times(self) -> str:
        """The times as two cells of a table."""
        return " | ".join(f"{one:.1f}, {other:.1f}" for one, other in ((self.without.processor, self.with_driver.processor), (self.without.clock, self.with_driver.clock)))


def compiled(compiler: list[str], words: list[str], folder: Path, variables: dict[str, str], times: Times) -> bool:
    """Runs a compiler, adds its time, and returns whether it succeeded."""
    start = time.monotonic()
    with subprocess.Popen([*compiler, *words], cwd=folder, env=variables, stdout=subprocess.DEVNULL, stderr=subprocess.DEVNULL) as ran:
        _, status, used = os.wait4(ran.pid, 0)
        ran.returncode = os.waitstatus_to_exitcode(status)
    times.add(Times(used.ru_utime + used.ru_stime, time.monotonic() - start))
    return ran.returncode == 0


def measured(package: Package, given: argparse.Namespace, words: list[str], work: Path) -> Outcome:
    """Compiles each file of a package without the driver and then with it, one right after the other, so that other load affects both alike."""
    folder = package.folder(given.sources.resolve())
    log = work / f"{package.name}.log"
    plain_compiler = os.environ.get("PEEP_CC", "arm-none-eabi-gcc")
    variables = {**os.environ, "PEEP_LOG": str(log), "PEEP_CC": plain_compiler}
    ways = {"plain": plain_compiler.split(), "short": [str(TOP / "driver" / "peep-cc")]}
    if given.alone:
        del ways["plain"]
    times = {"plain": Times(), "short": Times()}
    for way in ways:
        (work / way / package.name).mkdir(parents=True)

    def both(path: Path) -> bool:
        name = str(path.relative_to(folder)).replace("/", "_") + ".o"
        targets = {way: work / way / package.name / name for way in ways}
        went = {
            way: compiled(compiler, [*package.words, "-w", *CORE, *words, "-c", str(path), "-o", str(targets[way])], folder, variables, times[way])
            for way, compiler in ways.items()
        }
        if len(set(went.values())) > 1:
            print(f"{package.name}: {name}: the compiler's status isn't the driver's")
            return False
        if not given.alone and all(went.values()) and text_size(targets["short"]) > text_size(targets["plain"]):
            print(f"{package.name}: {name}: larger")
            return False
        return True

    with ThreadPoolExecutor(given.jobs) as pool:
        is_well = all(list(pool.map(both, package.files(given.sources.resolve(), given.most))))
    return Outcome(read_logs([log]) if log.exists() else [], times["plain"], times["short"], is_well)


def row(name: str, outcome: Outcome) -> str:
    """A row of a table."""
    facts = outcome.facts
    before, saved = sum(one.before for one in facts), sum(one.saved() for one in facts)
    every, handed, replaced = (sum(getattr(one, key) for one in facts) for key in ("instructions", "handed_instructions", "replaced"))
    gone = sum(len(replacement.old) - len(replacement.new) for one in facts for replacement in one.replacements)
    return f"| {name} | {len(facts)} | {before:,} | {saved:,} | {share(saved, before)} | {every:,} | {share(handed, every)} | {replaced} | {gone} | {share(gone, handed)} | {outcome.times()} |"


def main() -> int:
    """Measures the packages."""
    parser = argparse.ArgumentParser()
    parser.add_argument("--jobs", type=int, default=4)
    parser.add_argument("--most", type=int, default=10_000)
    parser.add_argument("--use", default="measure")
    parser.add_argument("--alone", action="store_true")
    parser.add_argument("sources", type=Path)
    given, words = parser.parse_known_args()
    audit_tables()
    everything = Outcome([], Times(), Times(), True)
    told: list[str] = []
    print("| package | objects | code | bytes saved | | instructions | handed over | windows replaced | instructions saved | of those handed over "
          "| seconds of the processor, without and with the driver | by the clock, one object beside another |\n" + 12 * "|---" + "|")
    with tempfile.TemporaryDirectory() as name:
        for package in packages(given.use):
            outcome = measured(package, given, words, Path(name))
            everything.facts += outcome.facts
            everything.without.add(outcome.without)
            everything.with_driver.add(outcome.with_driver)
            everything.is_well &= outcome.is_well
            told += sorted({f"{package.name}: {one.error}" for one in outcome.facts if one.error})
            print(row(f"{package.name} {package.version}", outcome), flush=True)
    print(row("all", everything))
    print("\n".join(told))
    return 0 if everything.is_well else 1


if __name__ == "__main__":
    sys.exit(main())
