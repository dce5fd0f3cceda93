#!/usr/bin/env python3
"""Writes the sources of some crates as one plain Rust file: the same code without contracts, ghost code and tests.
Use: stripped.py OUT.rs CRATE.. [-- LEFT_OUT_MODULE..]"""
import re
import sys
from pathlib import Path

top = Path(__file__).resolve().parent.parent


def without_clauses(text):
    text = text.split("#[cfg(test)]")[0]
    out, skipping, depth = [], False, 0
    for line in text.split("\n"):
        bare = line.strip()
        if not skipping and re.match(r"(pub )?(ghost|requires|ensures)\b", bare):
            skipping, depth = True, 0
        if skipping:
            depth += bare.count("{") - bare.count("}")
            if depth <= 0 and (bare.endswith("}") or bare.endswith(",") or bare.endswith(";")):
                skipping = False
            continue
        if bare.startswith("#[tactic") or bare.startswith("#![tactic") or bare.startswith("//!"):
            continue
        out.append(line)
    return "\n".join(out)


def module(crate, path, names, left_out):
    text = without_clauses(path.read_text())
    text = re.sub(r"\bcrate::", f"crate::{crate}::", text)
    for name in names:
        text = re.sub(rf"\buse {name}::", f"use crate::{name}::", text)
    for gone in left_out:
        text = re.sub(rf"(pub )?(mod {gone};|use {gone}::[^;]*;)\n", "", text)
    return text


def main():
    words = sys.argv[1:]
    left_out = words[words.index("--") + 1 :] if "--" in words else []
    out, crates = words[0], words[1 : words.index("--") if "--" in words else None]
    parts = ["#![allow(dead_code, unused)]"]
    for crate in crates:
        source = top / "crates" / crate / "src"
        root = module(crate, source / "lib.rt", crates, left_out)
        for path in sorted(source.glob("*.rt")):
            if path.stem in ("lib", "tests") or path.stem in left_out:
                continue
            body = module(crate, path, crates, left_out)
            root = re.sub(rf"(pub )?mod {path.stem};", lambda m: f"{m.group(1) or ''}mod {path.stem} {{\n{body}\n}}", root)
        root = re.sub(r"\bpub use (\w+)::", r"pub use self::\1::", root)
        parts.append(f"pub mod {crate} {{\n{root}\n}}")
    Path(out).write_text("\n".join(parts) + "\n")


main()
