#!/usr/bin/env python3
"""Prints the files of definitions on which the program's promise depends, in an order for reading.

The first is the headline; then come the files that it imports, in the order of its import lines, then those that these import, and so on. Each file is listed
once, where it is first met. `--write` puts the list into docs/PROVED.md, between the two lines that mark its place; `--check` fails if the list there is
outdated.
"""
import pathlib
import re
import sys

TOP = pathlib.Path(__file__).resolve().parent.parent
FIRST = ("audit_cli", "Headline")
PAGE = TOP / "docs" / "PROVED.md"
BEGIN = "<!-- reading order: bench/reading_order.py --write -->"
END = "<!-- end of the reading order -->"
HOUR = 10
USE = re.compile(r"^use Rattle\.(\w+)\.specs\.([\w.]+)", re.MULTILINE)


def file_of(crate, module):
    return TOP / "crates" / crate / "specs" / f"{module}.antt"


def imports_of(text):
    """The files of definitions that a file imports, in order, without types that the code declares."""
    for crate, path in USE.findall(text):
        parts = path.strip(".").split(".")
        for count in range(len(parts), 0, -1):
            module = "/".join(parts[:count])
            if file_of(crate, module).is_file():
                yield crate, module
                break


def reading_order():
    """Each file with its distance from the first, its number of lines and what its first line says of it."""
    order, seen, step = [], {FIRST}, [FIRST]
    distance = 0
    while step:
        following = []
        for name in step:
            text = file_of(*name).read_text()
            about = text.split("\n", 1)[0].removeprefix("-- ")
            order.append((name, distance, text.count("\n"), about))
            for other in imports_of(text):
                if other not in seen:
                    seen.add(other)
                    following.append(other)
        step, distance = following, distance + 1
    return order


def told(name, lines):
    return f"`{name[0]}/{name[1]}` {lines}"


def page():
    order = reading_order()
    out = [f"{len(order)} files, {sum(lines for _, _, lines, _ in order)} lines; the longest has {max(lines for _, _, lines, _ in order)}.", ""]
    out += [f"{number}. {told(name, lines)}: {about}" for number, (name, _, lines, about) in enumerate(order[:HOUR], 1)]
    rest = order[HOUR:]
    for distance in sorted({d for _, d, _, _ in rest}):
        files = [told(name, lines) for name, d, lines, _ in rest if d == distance]
        out += ["", f"Then, {distance} {'step' if distance == 1 else 'steps'} from the first: " + ", ".join(files) + "."]
    return "\n".join(out)


def main():
    text = page()
    if len(sys.argv) == 1:
        print(text)
        return 0
    before, rest = PAGE.read_text().split(BEGIN)
    old, after = rest.split(END)
    new = f"\n{text}\n"
    if sys.argv[1] == "--check":
        return 0 if old == new else 1
    PAGE.write_text(before + BEGIN + new + END + after)
    return 0


if __name__ == "__main__":
    sys.exit(main())
