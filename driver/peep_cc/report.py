"""The result for each object, as a line of the log, and the report that is made of these lines."""

from __future__ import annotations

import errno
import json
import os
import sys
from collections import Counter, namedtuple
from collections.abc import Iterable

from .elf import text_size
from .files import lines_of, read_text
from .settings import LOG_NAME


# a function that was left out: the source line, the statement there, and the reason
Left = namedtuple("Left", "function where line why")
# instructions that were replaced, and those in their place
Replacement = namedtuple("Replacement", "function where old new")


class Facts:
    """The facts about one object."""

    def __init__(self, target: str, source: str) -> None:
        self.object = target
        self.source = source
        self.functions = 0
        self.handed = 0
        self.instructions = 0
        self.handed_instructions = 0
        self.replaced = 0
        self.before = 0
        self.after = 0
        self.seconds = 0.0
        self.error: str | None = None
        self.left: list[Left] = []
        self.replacements: list[Replacement] = []
        self.notes: list[str] = []

    def line(self) -> str:
        """Its line of a log."""
        told = {**vars(self), "left": [left._asdict() for left in self.left], "replacements": [replacement._asdict() for replacement in self.replacements]}
        return json.dumps(told) + "\n"

    def saved(self) -> int:
        """How many bytes of code are saved."""
        return self.before - self.after


def write_facts(log: str | None, facts: Facts) -> None:
    """Appends a line to a log, in one write, since several runs may do so at the same time. A failure is reported on standard error."""
    if log is None:
        return
    try:
        at = os.open(log, os.O_WRONLY | os.O_APPEND | os.O_CREAT, 0o666)
        try:
            line = facts.line().encode()
            if os.write(at, line) < len(line):
                raise OSError(errno.ENOSPC, os.strerror(errno.ENOSPC))
        finally:
            os.close(at)
    except OSError as error:
        print(f"peep-cc: {log}: {error.strerror}" + (f"; {facts.object}: {facts.error}" if facts.error else ""), file=sys.stderr)


def facts_of(line: str) -> Facts | None:
    """The facts of a line of a log, or None if the line isn't complete."""
    try:
        said = json.loads(line)
        facts = Facts(said["object"], said["source"])
        said["left"] = [Left(**left) for left in said["left"]]
        said["replacements"] = [Replacement(**replacement) for replacement in said["replacements"]]
        if said.keys() != vars(facts).keys():
            return None
        vars(facts).update(said)
        return facts
    except (ValueError, TypeError, KeyError):
        return None


def logs_below(place: str | os.PathLike[str]) -> list[str]:
    """The logs in a folder and in those below it."""
    return sorted(os.path.join(folder, LOG_NAME) for folder, _, names in os.walk(place) if LOG_NAME in names)


def read_logs(logs: Iterable[str | os.PathLike[str]]) -> list[Facts]:
    """The last facts of each object that exists."""
    last: dict[str, Facts] = {}
    for log in logs:
        for line in lines_of(read_text(log)):
            facts = facts_of(line)
            if facts is not None:
                last[facts.object] = facts
    found = [facts for facts in last.values() if os.path.isfile(facts.object)]
    for facts in found:
        if not facts.before:
            facts.before = facts.after = text_size(facts.object)
    return found


def share(part: int, whole: int) -> str:
    """A part of a whole in per cent, with two decimals."""
    return f"{100 * part / whole:.2f} %" if whole else "0 %"


def page(all_facts: list[Facts]) -> list[str]:
    """The lines of the report."""
    lines = []
    for facts in sorted(all_facts, key=lambda facts: (-facts.saved(), facts.object)):
        lines.append(
            f"{os.path.relpath(facts.object)}: {facts.handed} of {facts.functions} functions handed over, {facts.replaced} replaced, "
            f"code {facts.before} -> {facts.after}, {facts.saved()} bytes saved"
        )
        lines += [f"  plain object: {facts.error}"] if facts.error else []
        for replacement in facts.replacements:
            lines.append(f"  {replacement.where}: {replacement.function}: {'; '.join(replacement.old) or 'nothing'} -> {'; '.join(replacement.new) or 'nothing'}")
        lines += [f"  {left.where}: {left.line}: {left.function} left as it was, {left.why}" for left in facts.left]
        lines += [f"  {note}" for note in facts.notes]
    return lines + totals(all_facts)


def totals(all_facts: list[Facts]) -> list[str]:
    """The lines for all objects together."""
    before, saved = sum(facts.before for facts in all_facts), sum(facts.saved() for facts in all_facts)
    handed, instructions = sum(facts.handed_instructions for facts in all_facts), sum(facts.instructions for facts in all_facts)
    why = Counter(left.why for facts in all_facts for left in facts.left)
    errors = Counter(facts.error for facts in all_facts if facts.error)
    lines = [
        f"{len(all_facts)} objects, {sum(facts.handed for facts in all_facts)} of {sum(facts.functions for facts in all_facts)} functions handed over with "
        f"{handed} of {instructions} instructions ({share(handed, instructions)}), {sum(facts.replaced for facts in all_facts)} replaced",
        f"code {before} -> {before - saved}: {saved} bytes saved ({share(saved, before)})",
    ]
    lines += [f"{count} functions left as they were: {reason}" for reason, count in why.most_common()]
    return lines + [f"{count} objects as the compiler made them: {error}" for error, count in errors.most_common()]


def report(places: list[str], log: str | None) -> int:
    """Prints the report of the given logs and of those below given folders; by default of the settings' log, or if there is none of those below this folder."""
    paths = places or ([log] if log and os.path.isfile(log) else ["."])
    logs = [found for path in paths for found in (logs_below(path) if os.path.isdir(path) else [path])]
    try:
        facts = read_logs(logs)
    except OSError as error:
        print(f"peep-cc: {error}", file=sys.stderr)
        return 1
    if not facts:
        print("peep-cc: no log tells of an object that is here", file=sys.stderr)
        return 1
    print("\n".join(page(facts)))
    return 0
