#!/usr/bin/env python3
"""Compiles the files of source packages to listings, one after the other or several at a time, and prints how many of each package compiled.

Use: listings.py [--most N] [--jobs N] USE SOURCES OUT WORD..

USE is `learn` or `measure`, SOURCES the folder with the unpacked packages of packages.txt, OUT the folder for the listings, OUT/PACKAGE/FILE.s. The words are
compiler options; they follow those of the package. Of a package at most N files are taken, evenly spread. Files that don't compile for this core, for example
because they need an operating system, are left out. Existing listings are kept, so that a second run continues.
PEEP_CC names another compiler than arm-none-eabi-gcc."""

from __future__ import annotations

import argparse
import os
import shlex
import subprocess
import sys
from concurrent.futures import ThreadPoolExecutor
from dataclasses import dataclass
from pathlib import Path

HERE = Path(__file__).resolve().parent


@dataclass
class Package:
    """A source package: its use, and how its files are compiled."""

    use: str
    name: str
    version: str
    words: list[str]
    patterns: list[str]

    def folder(self, sources: Path) -> Path:
        """The folder of the unpacked package: its name and upstream version."""
        upstream = self.version.split(":")[-1].rsplit("-", 1)[0]
        return sources / f"{self.name}-{upstream}"

    def files(self, sources: Path, most: int) -> list[Path]:
        """Its files, at most `most` of them, evenly spread."""
        folder = self.folder(sources)
        found = sorted({path for pattern in self.patterns for path in folder.glob(pattern)})
        return found if len(found) <= most else [found[at * len(found) // most] for at in range(most)]


def packages(use: str) -> list[Package]:
    """The packages for a use."""
    found = []
    for line in (HERE / "packages.txt").read_text().splitlines():
        if line and not line.startswith("#"):
            kind, name, version, words, patterns = (part.strip() for part in line.split(";"))
            found.append(Package(kind, name, version, shlex.split(words.replace('"', '\\"')), patterns.split()))
    return [package for package in found if package.use == use]


def compile_one(package: Package, sources: Path, path: Path, out: Path, words: list[str]) -> bool:
    """Compiles a file, and returns whether its listing exists then."""
    folder = package.folder(sources)
    name = str(path.relative_to(folder)).replace("/", "_")
    listing = out / package.name / (os.path.splitext(name)[0] + ".s")
    if listing.exists():
        return True
    compiler = shlex.split(os.environ.get("PEEP_CC", "arm-none-eabi-gcc"))
    ran = subprocess.run([*compiler, *package.words, "-w", *words, "-S", str(path), "-o", str(listing)], cwd=folder, capture_output=True)
    if ran.returncode and listing.exists():
        listing.unlink()
    return ran.returncode == 0


def main() -> int:
    """Compiles the packages for a use."""
    parser = argparse.ArgumentParser()
    parser.add_argument("--most", type=int, default=10_000)
    parser.add_argument("--jobs", type=int, default=1)
    parser.add_argument("use")
    parser.add_argument("sources", type=Path)
    parser.add_argument("out", type=Path)
    given, words = parser.parse_known_args()
    # the compiler runs in the package's folder
    sources = given.sources.resolve()
    for package in packages(given.use):
        (given.out / package.name).mkdir(parents=True, exist_ok=True)
        files = package.files(sources, given.most)
        with ThreadPoolExecutor(given.jobs) as pool:
            went = list(pool.map(lambda path: compile_one(package, sources, path, given.out.resolve(), words), files))
        print(f"{package.name} {package.version}: {sum(went)} of {len(files)} files", flush=True)
    return 0


if __name__ == "__main__":
    sys.exit(main())
