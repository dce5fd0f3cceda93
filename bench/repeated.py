#!/usr/bin/env python3
"""Writes one listing by repeating the files of a folder, as many as LINES (65,000) lines can hold. Use: bench/repeated.py FOLDER [LINES] > listing.s

The copy's number is appended to each name that a file defines, by a label or by `.set`, wherever the file's statements mention it."""
import re
import sys
from pathlib import Path

NAME = r"(?<![%A-Za-z_.$0-9])[A-Za-z_.$][A-Za-z_.$0-9]*"
LABELS = re.compile(rf"(?:[ \t]*{NAME}:)*")
SET = re.compile(rf"[ \t]*\.(?:set|equ)[ \t]+({NAME})")
WORD = re.compile(r"[ \t]*[^ \t]*")


def parts(line):
    """The labels of a line, the first word of its statement, what follows it, and the comment."""
    code, at, comment = line.partition("@") if not line.lstrip().startswith("#") else ("", "", line)
    labels = LABELS.match(code).group()
    word = WORD.match(code[len(labels) :]).group()
    return labels, word, code[len(labels) + len(word) :], at + comment


def defined(lines):
    """The names that lines define."""
    names = set()
    for line in lines:
        labels, word, rest, _ = parts(line)
        names.update(re.findall(NAME, labels), SET.findall(word + rest))
    return names


def copied(lines, names, number):
    """The lines with a number appended to each of the names."""

    def numbered(text):
        return re.sub(NAME, lambda m: f"{m.group()}_{number}" if m.group() in names else m.group(), text)

    for line in lines:
        labels, word, rest, comment = parts(line)
        yield numbered(labels) + word + numbered(rest) + comment


def main():
    most = int(sys.argv[2]) if len(sys.argv) > 2 else 65_000
    files = [path.read_text("latin-1").split("\n") for path in sorted(Path(sys.argv[1]).iterdir()) if path.is_file()]
    files = [lines[:-1] if lines[-1] == "" else lines for lines in files]
    files = [(lines, defined(lines)) for lines in files if lines]
    sys.stdout.reconfigure(encoding="latin-1")
    number, written = 0, 0
    while any(len(lines) <= most - written for lines, _ in files):
        for lines, names in files:
            if len(lines) <= most - written:
                number += 1
                written += len(lines)
                sys.stdout.writelines(line + "\n" for line in copied(lines, names, number))


if __name__ == "__main__":
    main()
