"""Makes one object: compiles, rewrites and assembles it, and keeps the compiler's own unless the code got smaller."""

from __future__ import annotations

import os
import subprocess
import sys
import time

from .elf import text_size
from .files import Folder, lines_of, read_text, write_text
from .listing import Function, Origin, files_of, functions_of, is_for_core, is_instruction, judge, origins, statement
from .program import Program, ProgramError
from .recipe import LEARNING, Rewriter
from .report import Facts, Left, Replacement, write_facts
from .settings import Settings
from .splice import spliced
from .words import Compilation

# files that a compiler writes beside its listing and that belong beside the object
SIDE_FILES = (".su", ".ci", ".opt.yaml")


class PlainError(Exception):
    """The listing couldn't be made or assembled: the compiler has to run with the build's own arguments."""


def why_plain(settings: Settings) -> str | None:
    """Why nothing can be rewritten with these settings, or None if it can."""
    if settings.wrong:
        return settings.wrong
    if not settings.program:
        return "no program peep: PEEP names it, or ./peep builds it"
    if not is_program(settings.program):
        return f"no program {settings.program}"
    if not settings.tables:
        return "no table"
    missing = [table for table in settings.tables if not os.access(table, os.R_OK)]
    return f"no table {missing[0]}" if missing else None


def is_program(name: str) -> bool:
    """Whether a program of this name or path can be run."""
    if os.access(name, os.X_OK):
        return True
    import shutil

    return shutil.which(name) is not None


class Unit:
    """One object that is being made. `work` is the folder for temporary files."""

    def __init__(self, compilation: Compilation, settings: Settings, work: str) -> None:
        self.compilation = compilation
        self.settings = settings
        self.listing = os.path.join(work, os.path.splitext(os.path.basename(compilation.target))[0] + ".s")
        self.work = work
        self.facts = Facts(os.path.abspath(compilation.target), compilation.source)

    def compile(self) -> str:
        """Writes the listing, its side files and the compiler's own object. Returns the compiler's messages."""
        words = self.compilation.listing_words(self.listing)
        if not any(word.startswith("-g") for word in words):
            # gcc then names the source lines in comments
            words.append("-fverbose-asm")
        said = self._compiler(words)
        said += self._compiler(self.compilation.assembler_words(self.listing, self.compilation.target))
        folder = os.path.dirname(self.compilation.target)
        for name in os.listdir(self.work):
            if name.endswith(SIDE_FILES):
                import shutil

                shutil.move(os.path.join(self.work, name), os.path.join(folder, name))
        return said

    def _compiler(self, words: list[str]) -> str:
        ran = subprocess.run([*self.settings.compiler, *words], stderr=subprocess.PIPE, text=True, errors="replace")
        if ran.returncode:
            raise PlainError(ran.stderr)
        return ran.stderr

    def shorten(self) -> None:
        """Rewrites the listing, and keeps the resulting object if its code is smaller."""
        facts = self.facts
        facts.before = facts.after = text_size(self.compilation.target)
        lines = lines_of(read_text(self.listing))
        if not is_for_core(lines):
            facts.error = "not for Armv6-M"
            return
        functions, outside = functions_of(lines)
        judge(functions, outside)
        told = None
        try:
            program = Program(str(self.settings.program), self.settings.seconds)
            rewriter = Rewriter(program, self.settings.tables, LEARNING if self.settings.learns else [], self.work)
            told = rewriter.rewrite(functions)
            if told.replaced:
                self._assemble(lines, functions)
        finally:
            self._tell(lines, functions, told.replaced if told else 0)
            facts.notes += told.notes if told else []

    def _assemble(self, lines: list[str], functions: list[Function]) -> None:
        folder, made = os.path.join(self.work, "short"), os.path.join(self.work, "short.o")
        short = os.path.join(folder, os.path.basename(self.listing))
        os.mkdir(folder)
        text = "".join(spliced(lines, functions))
        write_text(short, text)
        try:
            self._compiler(self.compilation.assembler_words(short, made, tells=False))
        except PlainError as error:
            raise ProgramError(f"the assembler refuses the shorter listing: {error_of(str(error))}") from error
        size = text_size(made)
        if size >= self.facts.before:
            self.facts.notes.append("the object doesn't get smaller by what was replaced: alignment")
            return
        if self.compilation.asks_assembler_to_tell():
            self._compiler(self.compilation.assembler_words(short, made))
        put_in_place(made, self.compilation.target)
        self.facts.after = size
        if self.settings.keeps_listings:
            write_text(self.compilation.target + ".peep.s", text)

    def _tell(self, lines: list[str], functions: list[Function], replaced: int) -> None:
        facts, files = self.facts, files_of(lines)
        facts.functions = len(functions)
        facts.instructions = sum(function.instructions() for function in functions)
        facts.handed = sum(function.new is not None for function in functions)
        facts.handed_instructions = sum(function.instructions() for function in functions if function.new is not None)
        facts.replaced = replaced
        for function in functions:
            froms = list(origins(function, files))
            if function.why is not None:
                at = function.at or 0
                facts.left.append(Left(function.name, self._where(froms[at], function, at), statement(function.lines[at]), function.why))
            elif function.new is not None and function.new != function.lines:
                facts.replacements += self._replacements(function, froms)

    def _where(self, origin: Origin | None, function: Function, at: int) -> str:
        """The source line, or the line of the listing if the compiler names none."""
        return str(origin) if origin else f"{self.compilation.source}: line {function.first + at + 1} of the listing"

    def _replacements(self, function: Function, froms: list[Origin | None]) -> list[Replacement]:
        assert function.new is not None
        places = [place for place, line in enumerate(function.lines) if is_instruction(line)]
        old = [statement(function.lines[place]) for place in places]
        new = [statement(line) for line in function.new if is_instruction(line)]
        found = []
        for first, end, new_first, new_end in changes(old, new):
            at = places[min(first, len(places) - 1)]
            found.append(Replacement(function.name, self._where(froms[at], function, at), old[first:end], new[new_first:new_end]))
        return found


def changes(old: list[str], new: list[str]) -> list[tuple[int, int, int, int]]:
    """The ranges where instructions differ, in the old and in the new ones. Two ranges with at most one old instruction between are joined."""
    import difflib

    found: list[tuple[int, int, int, int]] = []
    for kind, first, end, new_first, new_end in difflib.SequenceMatcher(None, old, new, autojunk=False).get_opcodes():
        if kind == "equal":
            continue
        if found and first - found[-1][1] <= 1:
            first, _, new_first, _ = found.pop()
        found.append((first, end, new_first, new_end))
    return found


def put_in_place(made: str | os.PathLike[str], target: str) -> None:
    """Replaces a file by another atomically: if the disk is full, the old one remains."""
    import shutil

    place = os.path.realpath(target)
    beside = f"{place}.peep-{os.getpid()}"
    try:
        shutil.copyfile(made, beside)
        shutil.copymode(place, beside)
        os.replace(beside, place)
    finally:
        if os.path.exists(beside):
            os.remove(beside)


def error_of(said: str) -> str:
    """The first line of a compiler's messages that has the word error, otherwise the last line."""
    lines = said.strip().splitlines() or ["nothing said"]
    return next((line for line in lines if "error" in line.lower()), lines[-1])


def plain(settings: Settings, words: list[str]) -> int:
    """Runs the compiler with the build's own arguments, in place of this process."""
    sys.stderr.flush()
    try:
        os.execvp(settings.compiler[0], [*settings.compiler, *words])
    except OSError as error:
        print(f"peep-cc: {settings.compiler[0]}: {error.strerror}", file=sys.stderr)
        return 127


def make(compilation: Compilation, settings: Settings, words: list[str]) -> int:
    """Makes an object, and returns the status that the build gets."""
    start = time.monotonic()
    facts = Facts(os.path.abspath(compilation.target), compilation.source)
    facts.error = why_plain(settings)
    if facts.error:
        write_facts(settings.log, facts)
        return plain(settings, words)
    try:
        with Folder() as name:
            unit = Unit(compilation, settings, name)
            facts = unit.facts
            said = unit.compile()
            sys.stderr.write(said)
            try:
                unit.shorten()
            except PlainError:
                raise
            except Exception as error:
                # whatever fails, the compiler's own object is kept
                facts.error = str(error) or type(error).__name__
    except PlainError as error:
        # logged even if the compiler may refuse the source: then there is no object, and the report leaves it out
        facts.error = f"the way by a listing fails: {error_of(str(error))}"
        write_facts(settings.log, facts)
        return plain(settings, words)
    except OSError as error:
        if not facts.before:
            facts.error = str(error)
            write_facts(settings.log, facts)
            return plain(settings, words)
    facts.seconds = round(time.monotonic() - start, 3)
    write_facts(settings.log, facts)
    return 0
