#!/usr/bin/env python3
"""Compares images with those of GNU as and ld and with what objdump reads in them, and adds addresses to listings. In both, each external name gets an odd
address, from 0xc00001 after the base on.

Use: bench/images.py compare PROGRAM LISTING.., where PROGRAM reads a listing and writes its image from 0, or with an argument from 0x8000000,
or   bench/images.py addressed < LISTING > LISTING, which turns debug lines into comments, since a repeated listing has their names twice,
or   bench/images.py gnu < LISTING > LISTING: in one section, with external names marked as functions, as GNU as needs them.

Two halfwords count as the same if one is a `nop` (BF00, or 46C0 of GNU as) or zero padding of GNU as, or if one is the 3-bit form of an addition to a
register's own value and the other its 8-bit form; GNU as also fills the end up to a multiple of 4."""
import re
import subprocess
import sys
import tempfile
from pathlib import Path

import disassembly
from repeated import NAME, defined, parts

NOPS = {0xBF00, 0x46C0, 0}


def mentioned(lines):
    """The names that branches, calls and data words mention, in order."""
    for line in lines:
        _, word, rest, _ = parts(line)
        if word.strip() in ("b", "bl"):
            yield rest.strip()
        elif word.strip() == ".word":
            yield from re.findall(rf"(?<![0-9])({NAME})", rest)


def addressed(text, base=0):
    """The text, preceded by lines that set the addresses of its external names."""
    lines = text.splitlines()
    known = defined(lines)
    names = dict.fromkeys(name for name in mentioned(lines) if name not in known)
    sets = [f"\t.set {name}, {base + 0xC00001 + 16 * n:#x}\n" for n, name in enumerate(names)]
    return "".join(sets) + text


def image(program, text, base):
    run = subprocess.run([program, "high"] if base else [program], input=text.encode(), capture_output=True)
    return run.stdout, run.stderr.decode().strip()


def gnu_text(text):
    """The text for GNU as: in one section, with external names marked as functions."""
    source = re.sub(r"(?m)^\s*\.section.*$", "\t.text", text)
    source = re.sub(r"(?m)^\t\.set (\S+), (0x\S+)$", r"\t.thumb_set \1, \2", source)
    return ".syntax unified\n.thumb\n" + source


def gnu_image(text, base, folder):
    """The bytes that GNU as and ld make from a text."""
    (folder / "in.s").write_text(gnu_text(text))
    subprocess.run(["arm-none-eabi-as", "-mcpu=cortex-m0", "-mthumb", folder / "in.s", "-o", folder / "in.o"], check=True)
    subprocess.run(["arm-none-eabi-ld", f"-Ttext={base:#x}", "-e", "0", folder / "in.o", "-o", folder / "in.elf"], check=True)
    subprocess.run(["arm-none-eabi-objcopy", "-O", "binary", "-j", ".text", folder / "in.elf", folder / "in.bin"], check=True)
    return (folder / "in.bin").read_bytes()


def short_form(half):
    """An addition of a 3-bit number to the register's own value, in its 8-bit form; other halfwords unchanged."""
    if half >> 10 == 0b000111 and half & 7 == half >> 3 & 7:
        return (0b00110 | half >> 9 & 1) << 11 | (half & 7) << 8 | half >> 6 & 7
    return half


def differences(ours, theirs):
    """The offsets of halfwords that don't count as the same."""
    if len(ours) != len(theirs) and theirs[len(ours) :] not in (b"\x00\x00", b"\xc0\x46"):
        yield min(len(ours), len(theirs)) // 2 * 2
    for at in range(0, min(len(ours), len(theirs)) - 1, 2):
        a, b = (int.from_bytes(bytes[at : at + 2], "little") for bytes in (ours, theirs))
        if a != b and not (a in NOPS and b in NOPS) and short_form(a) != short_form(b):
            yield at


def compare(program, paths):
    failed, files, read = False, 0, 0
    with tempfile.TemporaryDirectory() as folder:
        for path in paths:
            for base in (0, 0x8000000):
                text = addressed(Path(path).read_text(), base)
                ours, told = image(program, text, base)
                if told.startswith("refused"):
                    print(f"{path} at {base:#x}: {told}")
                    failed = True
                    continue
                theirs = gnu_image(text, base, Path(folder))
                wrong = [f"another halfword at {at:#x}" for at in differences(ours, theirs)]
                otherwise, count = disassembly.differences(text, ours, base, Path(folder))
                for line in wrong[:5] + otherwise[:5]:
                    print(f"{path} at {base:#x}: {line}")
                failed |= bool(wrong or otherwise)
                files, read = files + 1, read + count
    print(f"{files} images, as GNU as and ld make them, {read} instructions, as objdump reads them" + (", but for the above" if failed else ""))
    return failed


if sys.argv[1:] == ["addressed"]:
    sys.stdout.write(re.sub(r"(?m)^\t(\.(?:loc|file) )", r"\t@ \1", addressed(sys.stdin.read())))
elif sys.argv[1:] == ["gnu"]:
    sys.stdout.write(gnu_text(sys.stdin.read()))
elif sys.argv[1:2] == ["compare"]:
    sys.exit(compare(sys.argv[2], sys.argv[3:]))
else:
    sys.exit(__doc__)
