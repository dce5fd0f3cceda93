"""Passes functions to `peep` as one listing, and replaces their lines by the result.

`peep` keeps each line that it doesn't replace byte for byte. So a line that it needn't see, or only supports in another form, is passed as a comment or in that
form, with a mark that names the original line; afterwards the original takes its place again. Functions keep their names. After each comes a branch to an
external name, so that none falls through into the next one, which needn't follow it in the file.
"""

from __future__ import annotations

import re

from .files import lines_of
from .listing import LABEL, LONG, MENTION, PLACE, TRAP, UNWINDING, Function, is_comment

HEAD = ["\t.syntax unified\n", "\t.code 16\n", "\t.text\n"]
MARK = "@peep-cc "
MARKED = re.compile(rf".*{MARK}(\d+) (\d+|begin|own)$")
MOST_LINES = 60_000
"""The most lines of one listing, well below the limit of `peep`."""


class SpliceError(Exception):
    """The result doesn't match the listing that was passed."""


class Shown:
    """A listing for `peep`, and for each of its lines the function and the line of that function that it stands for."""

    def __init__(self, functions: list[Function], lines: list[str], owners: list[tuple[Function, int] | None]) -> None:
        self.functions = functions
        self.lines = lines
        self.owners = owners

    def text(self) -> str:
        """The listing's text."""
        return "".join(self.lines)

    def owner(self, line: int) -> tuple[Function, int] | None:
        """The function, and the line of it, for a line of the listing, counted from 1."""
        return self.owners[line - 1] if 0 < line <= len(self.owners) else None


def _is_hidden(line: str, mentioned: set[str]) -> bool:
    """Whether a line with a dot only serves unwinding or debug information, so that `peep` needn't see it."""
    if line.lstrip().startswith(".L"):
        found = LABEL.match(line)
        return bool(found and found[1] not in mentioned)
    return UNWINDING.match(line) is not None


def _for_peep(line: str, mentioned: set[str]) -> str | None:
    """The form in which `peep` supports the line, empty if it needn't see it, or None if the line is passed as it is."""
    if is_comment(line):
        return ""
    if "." not in line:
        return None
    if _is_hidden(line, mentioned):
        return ""
    if TRAP.match(line):
        return "\tb peep.trap "
    if found := LONG.match(line.split("@")[0].rstrip()):
        return f"{found[1]}.word{found[2]} "
    if found := re.match(r"(\s*\.type\s+[^\s,]+\s*,\s*)[@#]function", line):
        return f"{found[1]}%function "
    return None


def _shown(function: Function, number: int) -> list[tuple[str, int]]:
    """A function's lines for `peep`, each with the number of the function's line that it stands for."""
    mentioned = {label for line in function.lines if ".L" in line and not (LABEL.match(line) or PLACE.match(line) or ".size" in line) for label in MENTION.findall(line.split("@")[0])}
    lines = [("\t.thumb_func " + MARK + f"{number} begin\n", 0), (f"\t.type {function.name}, %function {MARK}{number} own\n", 0)]
    for at, line in enumerate(function.lines):
        other = _for_peep(line, mentioned)
        lines.append((line if other is None else f"{other}{MARK}{number} {at}\n", at))
    lines.append((f"\tb peep.end {MARK}{number} own\n", len(function.lines) - 1))
    return lines


def shown(functions: list[Function]) -> Shown:
    """The listing for `peep` of some functions of a unit."""
    listing = Shown(functions, list(HEAD), [None] * len(HEAD))
    for number, function in enumerate(functions):
        for line, at in _shown(function, number):
            listing.lines.append(line)
            listing.owners.append((function, at))
    return listing


def parts(functions: list[Function]) -> list[list[Function]]:
    """The functions that aren't left out, in groups that each fit one listing. A function with too many lines is left out."""
    found: list[list[Function]] = [[]]
    count = 0
    for function in functions:
        size = len(function.lines) + 3
        if size > MOST_LINES:
            function.leave("more lines than a listing has", 0)
        if function.why is not None:
            continue
        if count + size > MOST_LINES:
            found.append([])
            count = 0
        found[-1].append(function)
        count += size
    return [part for part in found if part]


def take_back(listing: Shown, text: str) -> None:
    """Takes the text that `peep` returned for a listing, and sets each function's new lines."""
    lines = lines_of(text)
    if lines[: len(HEAD)] != HEAD:
        raise SpliceError("the head of the listing didn't come back")
    news: list[list[str]] = []
    for line in lines[len(HEAD) :]:
        found = MARKED.match(line.rstrip("\n")) if MARK in line else None
        if found is None:
            if not news:
                raise SpliceError("a line stands before the first function")
            news[-1].append(line)
            continue
        number, what = int(found[1]), found[2]
        if what == "begin":
            news.append([])
        if number != len(news) - 1:
            raise SpliceError("the functions came back in another order")
        if what.isdecimal():
            news[-1].append(listing.functions[number].lines[int(what)])
    if len(news) != len(listing.functions):
        raise SpliceError("a function didn't come back")
    for function, new in zip(listing.functions, news):
        if not new or new[0] != function.lines[0] or new[-1] != function.lines[-1]:
            raise SpliceError(f"{function.name} didn't come back whole")
    for function, new in zip(listing.functions, news):
        function.new = new


def spliced(lines: list[str], functions: list[Function]) -> list[str]:
    """The compiler's whole listing, with the new lines of the functions that have some."""
    out = list(lines)
    for function in sorted(functions, key=lambda function: function.first, reverse=True):
        if function.new is not None:
            out[function.first : function.first + len(function.lines)] = function.new
    return out
