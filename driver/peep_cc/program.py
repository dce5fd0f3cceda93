"""Runs `peep`, for example to rewrite a listing or to learn a table from it. Refusals and failures raise exceptions."""

from __future__ import annotations

import os
import re
import subprocess

WORDS = {2: "usage", 3: "store", 4: "sink", 5: "memory", 6: "big", 7: "missing"}


class ProgramError(Exception):
    """A run of `peep` failed."""


class Refused(ProgramError):
    """`peep` refused its input, with one line of output."""


class RefusedLine(Refused):
    """`peep` refused a line of a listing."""

    def __init__(self, said: str, line: int, kind: int):
        super().__init__(said)
        self.line = line
        self.kind = kind


# why a line is refused, by the number that `peep` prints
KINDS = {
    1: "no line of the listing's grammar",
    2: "a name that was defined before",
    3: "a name that isn't what the statement needs",
    4: "out of reach",
    5: "a literal that isn't aligned",
    6: "a line that is too long or too far",
}


class Program:
    """The program `peep`, and the time limit of one run."""

    def __init__(self, path: str, seconds: float):
        self.path = path
        self.seconds = seconds

    def run(self, *words: str | os.PathLike[str]) -> str:
        """Runs a command, and returns what it prints."""
        try:
            ran = subprocess.run([self.path, *map(str, words)], capture_output=True, text=True, errors="replace", timeout=self.seconds, stdin=subprocess.DEVNULL)
        except OSError as error:
            raise ProgramError(f"{self.path}: {error.strerror or error}") from error
        except subprocess.TimeoutExpired as error:
            raise ProgramError(f"peep {words[0]}: took more than {self.seconds:g} s") from error
        said = " ".join((ran.stdout.strip() or ran.stderr.strip()).splitlines())
        if ran.returncode == 0:
            return ran.stdout
        if ran.returncode < 0:
            raise ProgramError(f"peep {words[0]}: ended by signal {-ran.returncode}")
        if ran.returncode != 1:
            raise ProgramError(f"peep {words[0]}: status {ran.returncode}, {WORDS.get(ran.returncode, said or 'nothing said')}")
        if found := re.match(r"refused listing (\d+) (\d+)", said):
            raise RefusedLine(f"peep {words[0]}: {said}", int(found[1]), int(found[2]))
        raise Refused(f"peep {words[0]}: {said}")

    def rewrite(self, table: str, listing: str, out: str) -> int:
        """Rewrites a listing by a table, and returns how many windows were replaced."""
        said = self.run("rewrite", table, listing, out, "-")
        found = re.match(r"replaced (\d+)\n", said)
        if found is None:
            raise ProgramError(f"peep rewrite: printed {said!r}")
        return int(found[1])

    def learn(self, listing: str, out: str, options: list[str]) -> None:
        """Learns a table from a listing."""
        self.run("learn", listing, out, *options)
