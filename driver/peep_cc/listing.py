"""Splits a compiler's listing into sections and functions, and finds the functions that `peep` supports.

A function is taken whole, from its label to its `.size`, or left out: where its lines alone don't determine what it does (data or jump tables in code, a label
that is used from outside), or where `peep` would refuse one of them.
"""

from __future__ import annotations

import re
from collections import Counter, namedtuple
from collections.abc import Iterator

from .files import lines_of

LONGEST_LINE = 1024

NAME = r"[A-Za-z_.$][\w.$]*"
LABEL = re.compile(rf"\s*({NAME}):\s*(?:@.*)?$")
TYPE = re.compile(rf"\s*\.type\s+({NAME})\s*,\s*[%#@]function\b")
SIZE = re.compile(rf"\s*\.size\s+({NAME})\s*,")
SECTION = re.compile(r"\s*\.(?:(text|data|bss)\b|(?:section|pushsection)\s+([^\s,]+)\s*(?:,\s*\"([^\"]*)\")?|(popsection|previous|subsection)\b)")
SECTION_WORDS = (".text", ".data", ".bss", ".section", ".pushsection", ".popsection", ".previous", ".subsection")
MENTION = re.compile(r"\.L[\w.$]+")
BRANCH = re.compile(r"\s+b\w*\s+(\.L[\w.$]+)\s*(?:@.*)?$")
PLACE = re.compile(r"\s*\.loc\s+(\d+)\s+(\d+)")
FILE = re.compile(r'\s*\.file\s+(\d+)\s+(?:"([^"]*)"\s+)?"([^"]*)"')
SOURCE_LINE = re.compile(r"@ (\S.*):(\d+): ")
CORE = re.compile(r"\s*\.(?:cpu\s+cortex-m(?:0|0plus|1)(?:\.small-multiply)?|arch\s+armv6s?-m)\s*(?:@.*)?$")
IP = re.compile(r"\b(?:ip|r12)\b")
OTHER_CORE = re.compile(r"\s*\.(?:cpu|arch)\s")
# directives for C++ unwinding, which don't change what runs
UNWINDING = re.compile(r"\s*\.(fnstart|fnend|cantunwind|save|pad|setfp|movsp|personality\w*|handlerdata)\b")
TRAP = re.compile(r"\s*\.inst(?:\.n)?\s+0xde(?:ff|fe)\s*(?:@.*)?$")
LONG = re.compile(r"(\s*)\.(?:long|4byte)(\s+\S.*)$")
REGISTERS = {*(f"r{number}" for number in range(13)), "sp", "lr", "pc", "ip", "fp", "sl", "sb"}

# lines for which a function is left out, each with the reason that the report gives
LEFT_OUT = [
    (r"__gnu_thumb1_case_|__ARM_common_switch|__switch\d+\b", "a jump table"),
    (r"\sblx?\s+_?_call_via_", "a call with a convention of its own"),
    (r"\s*\.syntax\s+divided\b", "inline assembly in the old syntax"),
    (r"\s*\.(arm|code\s+32)\b", "Arm code"),
    (r"\s*\.(byte|2byte|short|hword|half|8byte|quad|ascii|asciz|string|space|skip|zero|fill|float|double|single|inst|incbin|ltorg|pool|org)\b", "data in code"),
    (r"\s*\.(thumb_set|set|equ|equiv|macro|endm|rept|endr|irp|if|else|endif|include|altmacro)\b", "a directive in code"),
    (r"\s(?:add|mov|ldr|adds|sub|cmp|bx|blx)\b[^@]*[\s,\[]pc\b", "pc as an operand"),
    (r"\s(mrs|msr)\s+(?![^@]*\b(?:primask|ipsr)\b)", "a special register"),
]

LEAVES = re.compile("|".join(pattern for pattern, _ in LEFT_OUT), re.IGNORECASE)


def cut(text: str) -> tuple[list[str], list[str], Counter[str]]:
    """The lines of code (sections .text and .text.NAME, and lines before any section), the other lines, and the number of these by section."""
    code, rest, counts = [], [], Counter()
    section = ".text"
    for line in lines_of(text):
        found = SECTION.match(line)
        if found and not found[4]:
            section = f".{found[1]}" if found[1] else found[2]
        if section == ".text" or section.startswith(".text."):
            code.append(line)
        else:
            rest.append(line)
            counts[section] += 1
    return code, rest, counts


class Function:
    """A function of a listing: the lines from its label to its `.size`."""

    def __init__(self, name: str, first: int, lines: list[str]) -> None:
        """`first` is the number of its first line in the listing, from 0."""
        self.name = name
        self.first = first
        self.lines = lines
        self.why: str | None = None
        """Why it is left out, if it is."""
        self.at: int | None = None
        """For which of its lines, from 0, it is left out."""
        self.new: list[str] | None = None
        """Its lines after rewriting."""

    def leave(self, why: str, at: int | None = None) -> None:
        """Leaves it out. Only the first reason is kept."""
        if self.why is None:
            self.why, self.at = why, at

    def instructions(self) -> int:
        """How many instructions it has."""
        return sum(is_instruction(line) for line in self.lines)

    def labels(self) -> set[str]:
        """The labels that it defines."""
        return {found[1] for line in self.lines if (found := LABEL.match(line))}


def is_instruction(line: str) -> bool:
    """Whether a line is an instruction with no label before it."""
    return line[:1].isspace() and line.lstrip()[:1].isalpha()


def is_comment(line: str) -> bool:
    """Whether a line is only a comment, such as the compiler's on source lines."""
    return line.lstrip().startswith("@")


def statement(line: str) -> str:
    """A line's text without its comment, with single spaces."""
    return " ".join(line.split("@")[0].split())


_Section = namedtuple("_Section", "name is_code", defaults=(".text", True))


def _section_of(found: re.Match[str], before: _Section, saved: list[_Section], line: str) -> _Section:
    """The section after a line that changes it."""
    if found[4]:
        return saved.pop() if found[4] == "popsection" and saved else before if found[4] == "subsection" else _Section("?", False)
    if ".pushsection" in line:
        saved.append(before)
    name = f".{found[1]}" if found[1] else found[2]
    return _Section(name, name == ".text" or name.startswith(".text.") or "x" in (found[3] or ""))


def functions_of(lines: list[str]) -> tuple[list[Function], Counter[str]]:
    """The functions of a listing, and how often lines outside them, except debug information, mention each local label."""
    functions: list[Function] = []
    outside: Counter[str] = Counter()
    marked: set[str] = set()
    section, saved = _Section(), []
    is_unified = False
    start: tuple[str, int] | None = None
    for number, line in enumerate(lines):
        text = line.lstrip()
        if start is None:
            if found := TYPE.match(line):
                marked.add(found[1])
            if (found := LABEL.match(line)) and found[1] in marked and section.is_code and is_unified:
                start = (found[1], number)
        elif text.startswith(".size") and (found := SIZE.match(line)) and found[1] == start[0]:
            functions.append(Function(start[0], start[1], lines[start[1] : number + 1]))
            start = None
            continue
        if text.startswith(".syntax"):
            is_unified = "unified" in line
        elif text.startswith(SECTION_WORDS) and (found := SECTION.match(line)):
            section = _section_of(found, section, saved, line)
        if start is None and ".L" in text and not section.name.startswith(".debug") and not LABEL.match(line):
            outside.update(MENTION.findall(line.split("@")[0]))
    return functions, outside


def is_for_core(lines: list[str]) -> bool:
    """Whether a listing is for Armv6-M, according to its `.cpu` and `.arch` directives."""
    cores = [CORE.match(line) is not None for line in lines if OTHER_CORE.match(line)]
    return bool(cores) and all(cores)


def judge(functions: list[Function], outside: Counter[str]) -> None:
    """Leaves out the functions that are known not to be supported."""
    local = {function.name for function in functions}
    mentions = [_mentions(function) for function in functions]
    everywhere = Counter(outside)
    for own in mentions:
        everywhere.update(own)
    for function, own in zip(functions, mentions):
        _judge_labels(function, everywhere, own)
        for number, line in enumerate(function.lines):
            _judge_line(function, number, line)
        if keeps_ip(function.lines, local):
            function.leave("ip kept across a call of this file")


def _mentions(function: Function) -> Counter[str]:
    """How often a function's lines mention each local label, not counting definitions."""
    return Counter(label for line in function.lines if ".L" in line and not LABEL.match(line) for label in MENTION.findall(line.split("@")[0]))


def _judge_labels(function: Function, everywhere: Counter[str], mentions: Counter[str]) -> None:
    own = function.labels()
    if function.name.lower() in REGISTERS:
        function.leave("a name that is a register's", 0)
    for number, line in enumerate(function.lines):
        if ":" in line and (found := LABEL.match(line)) and everywhere[found[1]] > mentions[found[1]]:
            function.leave("a label that something outside mentions", number)
        elif ".L" in line and (found := BRANCH.match(line)) and found[1] not in own:
            function.leave("a branch to a label outside", number)


def _judge_line(function: Function, number: int, line: str) -> None:
    if is_comment(line):
        return
    if len(line) > LONGEST_LINE // 4 and len(line.rstrip("\n").encode(errors="surrogateescape")) > LONGEST_LINE:
        function.leave("a line of more than 1,024 bytes", number)
    if SECTION.match(line):
        function.leave("a change of section", number)
    text = line.split("@")[0].rstrip("\n") + "\n"
    if LEAVES.search(text) and not TRAP.match(line):
        function.leave(next(why for pattern, why in LEFT_OUT if re.search(pattern, text, re.IGNORECASE)), number)


def _ways_of_ip(code: str, after: bool, at: dict[str, bool], local: set[str]) -> tuple[bool, bool]:
    """Whether ip is live before a statement, given where it is live after it and at labels; and whether this is a call that may preserve a live ip."""
    if found := re.match(r"mov\s+(\w+),\s*(\w+)$", code):
        return found[2] in ("ip", "r12") or (after and found[1] not in ("ip", "r12")), False
    if found := re.match(r"blx?\s+(\S+)$", code):
        return found[1] in ("ip", "r12"), after and (found[1] in local or code.startswith("blx"))
    if re.match(r"bx\s|pop\b.*\bpc\b", code):
        return re.search(r"\b(ip|r12)\b", code) is not None, False
    if found := re.match(r"b(\w*)\s+(\S+)$", code):
        return (found[1] != "" and after) or at.get(found[2], False), False
    return after or (re.match(r"[a-z]", code) is not None and re.search(r"\b(ip|r12)\b", code) is not None), False


def keeps_ip(lines: list[str], local: set[str]) -> bool:
    """Whether ip may hold a value across a call of a function of the same file: with -fipa-ra gcc relies on what the callee writes, while for `peep` each call
    of a name outside its listing changes ip. A call by `blx` counts as one of the same file."""
    if not any(IP.search(line) for line in lines if "ip" in line or "r12" in line):
        return False
    code = [statement(line) for line in lines]
    labels = {index: found[1] for index, line in enumerate(lines) if (found := LABEL.match(line))}
    at: dict[str, bool] = {}
    while True:
        before = dict(at)
        live = False
        for index in range(len(code) - 1, -1, -1):
            if index in labels:
                at[labels[index]] = at.get(labels[index], False) or live
                continue
            live, is_kept = _ways_of_ip(code[index], live, at, local)
            if is_kept:
                return True
        if at == before:
            return False


class Origin(namedtuple("Origin", "file line")):
    """A source file and a line number."""

    def __str__(self) -> str:
        return f"{self.file}:{self.line}"


def files_of(lines: list[str]) -> dict[str, str]:
    """The names of the source files that a listing numbers by `.file`."""
    return {found[1]: found[3] if found[3].startswith("/") or not found[2] else f"{found[2]}/{found[3]}" for line in lines if (found := FILE.match(line))}


def origins(function: Function, files: dict[str, str]) -> Iterator[Origin | None]:
    """The source line of each of a function's lines, or None before the compiler names one."""
    origin: Origin | None = None
    for line in function.lines:
        if found := PLACE.match(line):
            origin = Origin(files.get(found[1], "?"), int(found[2]))
        elif found := SOURCE_LINE.match(line.strip()):
            origin = Origin(found[1], int(found[2]))
        yield origin
