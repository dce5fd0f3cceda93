#!/usr/bin/env python3
"""Lists names that a file of a crate's sources, definitions or proofs imports by a `use` line and doesn't mention, not all of which `rt tidy` sees.

    bench/unused_names.py [--take-out] [CRATE..]      --take-out: removes them; CRATE..: only in these crates

A name is searched as a word in the file's other lines, including comments, and an operator by its symbols. Only a check tells whether the crate is still proved
after the removal. Names of `pub use` stay, and so do files that do nothing else.
"""
import glob
import os
import re
import sys

TOP = os.path.join(os.path.dirname(os.path.abspath(__file__)), "..")
LINE = re.compile(r"((?:ghost )?use [\w.+\-]+\.\{)(.*)(\};?)$")
USE = re.compile(r"\s*(?:pub )?(?:ghost )?use ")


def is_said(name, body):
    """Whether a name, or its local name, occurs in a file's other lines."""
    called = name.split(" as ")[-1].strip()
    if "◌" in called:
        return all(sign in body for sign in called.split("◌") if sign)
    return re.search(rf"(?<![\w\-'’]){re.escape(called)}(?![\w\-'’])", body) is not None


def looked_over(text):
    """Returns the text without the names that it doesn't mention, and these names."""
    lines, kept, unused = text.split("\n"), [], []
    body = "\n".join(line for line in lines if not USE.match(line))
    if all(line.startswith("--") or not line or USE.match(line) for line in lines):
        return text, []
    for line in lines:
        parts = LINE.match(line)
        if parts:
            names = [name.strip() for name in parts[2].split(",")]
            said = [name for name in names if is_said(name, body)]
            unused += [name for name in names if name not in said]
            if said:
                kept.append(parts[1] + ", ".join(said) + parts[3])
        else:
            kept.append(line)
    return "\n".join(kept), unused


def main():
    takes_out = "--take-out" in sys.argv[1:]
    crates = [word for word in sys.argv[1:] if word != "--take-out"] or sorted(os.listdir(f"{TOP}/crates"))
    for crate in crates:
        for path in sorted(glob.glob(f"{TOP}/crates/{crate}/**/*", recursive=True)):
            part = os.path.relpath(path, f"{TOP}/crates/{crate}").split(os.sep)[0]
            if part not in ("src", "specs", "proofs") or not path.endswith((".rt", ".antt")):
                continue
            with open(path, encoding="utf-8") as it:
                text = it.read()
            left, unused = looked_over(text)
            for name in unused:
                print(f"{os.path.relpath(path, TOP)} {name}")
            if unused and takes_out:
                with open(path, "w", encoding="utf-8") as it:
                    it.write(left)


if __name__ == "__main__":
    main()
