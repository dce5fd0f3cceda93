"""Reads the compiler's command line: whether it compiles one source to one object, and the arguments for each step of that."""

from __future__ import annotations

import os
from collections import namedtuple

# options of gcc and clang whose argument is the next word
TAKES_NEXT = {
    "-o", "-I", "-D", "-U", "-include", "-imacros", "-isystem", "-iquote", "-idirafter", "-iprefix", "-iwithprefix", "-iwithprefixbefore", "-isysroot",
    "-MF", "-MT", "-MQ", "-MJ", "-x", "-T", "-L", "-l", "-u", "-e", "-z", "-A", "-B", "-target", "--target", "--param", "--sysroot", "-aux-info", "-arch", "-dumpbase",
    "-dumpbase-ext", "-dumpdir", "-specs", "-wrapper", "-Xassembler", "-Xlinker", "-Xpreprocessor", "-Xclang", "-mllvm", "-mcpu", "-march",
}
SOURCES = (".c", ".cc", ".cp", ".cxx", ".cpp", ".c++", ".C", ".CPP", ".i", ".ii")
# with these the compiler writes other things than one object, or derives file names or paths from the object's
STAYS_PLAIN = {"-E", "-S", "-M", "-MM", "-fsyntax-only", "-v", "-###", "-x", "-shared", "-r", "-wrapper", "-ftest-coverage", "--coverage", "-coverage", "-gsplit-dwarf", "-Q"}
STAYS_PLAIN_FROM = ("-flto", "-save-temps", "--save-temps", "-fdump", "-fprofile", "-Wp,-M", "--version", "--help", "-dump", "-print", "--print", "-emit-", "-fplugin", "-ftime-report")
# the options that are passed on when assembling
TO_ASSEMBLER = ("-m", "-Wa,", "-B", "--sysroot", "-specs", "--specs", "--target", "-target", "-fintegrated-as", "-fno-integrated-as", "-integrated-as", "-no-integrated-as", "-gz", "-I", "-Xassembler", "-nostdinc")


class Compilation(namedtuple("Compilation", "source target words")):
    """One object compiled from one source, by arguments without `-c` and `-o`."""

    source: str
    target: str
    words: tuple[str, ...]

    def listing_words(self, listing: str | os.PathLike[str]) -> list[str]:
        """The arguments for writing a listing, and the object's dependency file if that is asked for."""
        words = [*self.words, "-S", "-o", str(listing)]
        if "-MD" in self.words or "-MMD" in self.words:
            if not any(word.startswith("-MF") for word in self.words):
                words += ["-MF", os.path.splitext(self.target)[0] + ".d"]
            if not any(word.startswith(("-MT", "-MQ")) for word in self.words):
                words += ["-MQ", self.target]
        return words

    def assembler_words(self, listing: str | os.PathLike[str], target: str, tells: bool = True) -> list[str]:
        """The arguments for assembling a listing; unless `tells`, without those that ask for the assembler's own listing."""
        kept = [word for group in grouped(self.words) if group[0].startswith(TO_ASSEMBLER) and (tells or not group[0].startswith("-Wa,-a")) for word in group]
        # clang warns of options that it doesn't use here
        return [*kept, "-Wno-unused-command-line-argument", "-c", str(listing), "-o", str(target)]

    def asks_assembler_to_tell(self) -> bool:
        """Whether the arguments ask for the assembler's own listing."""
        return any(word.startswith("-Wa,-a") for word in self.words)


def grouped(words: tuple[str, ...] | list[str]) -> list[tuple[str, ...]]:
    """The words, each option together with its argument."""
    groups, rest = [], list(words)
    while rest:
        word = rest.pop(0)
        groups.append((word, rest.pop(0)) if word in TAKES_NEXT and rest else (word,))
    return groups


def spelled_out(words: list[str]) -> list[str]:
    """The words with each response file `@FILE` replaced by its words."""
    out = []
    for word in words:
        if word.startswith("@") and os.path.isfile(word[1:]):
            import shlex

            try:
                with open(word[1:]) as file:
                    out += spelled_out(shlex.split(file.read()))
                continue
            except (OSError, ValueError):
                pass
        out.append(word)
    return out


def compilation(words: list[str]) -> Compilation | str:
    """The compilation, if the words ask for one object of one source; otherwise why not."""
    groups = grouped(spelled_out(words))
    for group in groups:
        if group[0] in STAYS_PLAIN or group[0].startswith(STAYS_PLAIN_FROM):
            return f"asked for {group[0]}"
    if ("-c",) not in groups:
        return "no object alone"
    sources = [group[0] for group in groups if len(group) == 1 and not group[0].startswith("-")]
    if len(sources) != 1 or not sources[0].endswith(SOURCES):
        return "not one source in C or C++"
    targets = [group[1] for group in groups if group[0] == "-o" and len(group) == 2]
    targets += [group[0][2:] for group in groups if group[0].startswith("-o") and len(group[0]) > 2 and len(group) == 1]
    target = targets[-1] if targets else os.path.splitext(os.path.basename(sources[0]))[0] + ".o"
    if os.path.exists(target) and not os.path.isfile(target):
        return "the object is no file"
    kept = [word for group in groups if group != ("-c",) and not group[0].startswith("-o") for word in group]
    return Compilation(sources[0], target, tuple(kept))
