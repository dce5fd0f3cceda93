"""Reading the compiler's command line."""

import tempfile
import unittest
from pathlib import Path

from . import DRIVER  # noqa: F401
from peep_cc.words import Compilation, compilation, spelled_out


def asked(text: str) -> Compilation:
    found = compilation(text.split())
    assert isinstance(found, Compilation), found
    return found


class Words(unittest.TestCase):
    def test_one_object(self) -> None:
        found = asked("-Os -c a/b.c -o x/b.o -I inc -mcpu=cortex-m0")
        self.assertEqual((found.source, found.target), ("a/b.c", "x/b.o"))
        self.assertEqual(found.words, ("-Os", "a/b.c", "-I", "inc", "-mcpu=cortex-m0"))

    def test_object_has_the_name_of_its_source(self) -> None:
        self.assertEqual(asked("-c a/b.cpp").target, "b.o")
        self.assertEqual(asked("-c b.c -ox.o").target, "x.o")

    def test_what_follows_a_word_is_no_source(self) -> None:
        self.assertEqual(asked("-include a.c -c b.c").source, "b.c")

    def test_plain(self) -> None:
        for text in ("a.c -o a", "-c a.c b.c", "-E -c a.c", "-S a.c", "-c a.s", "-c a.S", "--version", "-flto -c a.c", "-c -x c a", "-c a.c -o /dev/null", "-c -v a.c", "-", ""):
            self.assertIsInstance(compilation(text.split()), str, text)

    def test_listing_is_made_with_the_dependencies_of_the_object(self) -> None:
        words = asked("-MMD -c a.c -o x/a.o").listing_words(Path("t.s"))
        self.assertEqual(words, ["-MMD", "a.c", "-S", "-o", "t.s", "-MF", "x/a.d", "-MQ", "x/a.o"])
        words = asked("-MD -MF d -MT o -c a.c").listing_words(Path("t.s"))
        self.assertEqual(words[-3:], ["-S", "-o", "t.s"])

    def test_assembler_is_told_what_concerns_it(self) -> None:
        words = asked("-g -Os -DX=1 -mcpu=cortex-m0 -Wa,-alh -Wall -I inc -c a.c").assembler_words(Path("t.s"), "a.o")
        self.assertEqual(words, ["-mcpu=cortex-m0", "-Wa,-alh", "-I", "inc", "-Wno-unused-command-line-argument", "-c", "t.s", "-o", "a.o"])

    def test_response_file(self) -> None:
        with tempfile.TemporaryDirectory() as name:
            file = Path(name) / "words"
            file.write_text("-c 'a b.c'\n-o x.o")
            self.assertEqual(spelled_out(["-Os", f"@{file}"]), ["-Os", "-c", "a b.c", "-o", "x.o"])
