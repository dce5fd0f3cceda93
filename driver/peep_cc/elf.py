"""The code size of an object, read from its section headers."""

from __future__ import annotations

import os
import struct

ALLOCATED, EXECUTABLE = 2, 4


def text_size(path: str | os.PathLike[str]) -> int:
    """The bytes of all allocated, executable sections of an object, or 0 if it isn't a 32-bit little-endian ELF file."""
    with open(path, "rb") as file:
        data = file.read()
    if data[:6] != b"\x7fELF\x01\x01" or len(data) < 52:
        return 0
    start, size, count = struct.unpack_from("<I", data, 32)[0], *struct.unpack_from("<HH", data, 46)
    total = 0
    for at in range(start, start + size * count, size):
        flags, length = struct.unpack_from("<I", data, at + 8)[0], struct.unpack_from("<I", data, at + 20)[0]
        if flags & ALLOCATED and flags & EXECUTABLE:
            total += length
    return total
