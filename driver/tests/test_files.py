"""Text files and temporary folders."""

import os
import unittest
from pathlib import Path
from unittest import mock

from . import DRIVER  # noqa: F401
from peep_cc.files import Folder, lines_of, read_text, write_text


class Files(unittest.TestCase):
    def test_a_line_ends_at_a_newline_alone(self) -> None:
        text = "a\x0cb\r\nc\u2028d\n\ne"
        self.assertEqual(lines_of(text), ["a\x0cb\r\n", "c\u2028d\n", "\n", "e"])
        self.assertEqual((lines_of(""), lines_of("a\n")), ([], ["a\n"]))

    def test_bytes_come_back(self) -> None:
        with Folder() as name:
            path, data = Path(name) / "file", bytes(range(256)) + b"\xc3\xa9\r\n"
            path.write_bytes(data)
            write_text(path, read_text(path))
            self.assertEqual(path.read_bytes(), data)

    def test_a_folder_is_new_and_goes_with_what_it_has(self) -> None:
        with Folder() as one, Folder() as two:
            self.assertNotEqual(one, two)
            os.makedirs(os.path.join(one, "a", "b"))
            write_text(os.path.join(one, "a", "file"), "x")
            self.assertEqual(os.stat(one).st_mode & 0o777, 0o700)
        self.assertFalse(os.path.exists(one) or os.path.exists(two))

    def test_no_place_for_it(self) -> None:
        with mock.patch("os.mkdir", side_effect=OSError(28, "No space left on device")), self.assertRaises(OSError):
            Folder()
