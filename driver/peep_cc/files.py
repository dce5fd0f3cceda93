"""Text files, read and written without change: bytes that aren't UTF-8 are preserved, and only a newline ends a line."""

from __future__ import annotations

import os


def lines_of(text: str) -> list[str]:
    """The lines of a text, each with its newline; the last may have none."""
    parts = text.split("\n")
    last = parts.pop()
    return [part + "\n" for part in parts] + ([last] if last else [])


def read_text(path: str | os.PathLike[str]) -> str:
    """A file's text."""
    with open(path, encoding="utf-8", errors="surrogateescape", newline="\n") as file:
        return file.read()


def write_text(path: str | os.PathLike[str], text: str) -> None:
    """Writes a text to a file."""
    with open(path, "w", encoding="utf-8", errors="surrogateescape", newline="\n") as file:
        file.write(text)


class Folder:
    """A temporary folder, removed with its contents at the end."""

    def __init__(self) -> None:
        """Makes it in the folder for temporary files. `tempfile` would do so too, but is slow to load."""
        place = next((name for name in (os.environ.get("TMPDIR"), "/tmp", ".") if name and os.access(name, os.W_OK)), ".")
        number = 0
        while True:
            self.path = os.path.abspath(os.path.join(place, f"peep-cc-{os.getpid()}-{number}"))
            try:
                os.mkdir(self.path, 0o700)
                return
            except FileExistsError:
                number += 1

    def __enter__(self) -> str:
        return self.path

    def __exit__(self, *_: object) -> None:
        """Removes it, as far as possible."""
        for folder, folders, files in os.walk(self.path, topdown=False):
            for remove, names in ((os.remove, files), (os.rmdir, folders)):
                for name in names:
                    _without_fail(remove, os.path.join(folder, name))
        _without_fail(os.rmdir, self.path)


def _without_fail(remove, path: str) -> None:  # type: ignore[no-untyped-def]
    try:
        remove(path)
    except OSError:
        pass
