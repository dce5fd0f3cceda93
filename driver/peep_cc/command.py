"""The command line: a first argument that begins with `--peep-` is the driver's, all others are the compiler's."""

from __future__ import annotations

import os
import sys

from .settings import Settings, settings_for
from .unit import make, plain
from .words import compilation

HELP = """\
peep-cc: a compiler that makes objects smaller by the proved rules of peep.

    make CC=peep-cc                         runs arm-none-eabi-gcc with the build's own arguments
    cmake -DCMAKE_C_COMPILER=/path/to/peep-cc ..
    ln -s /path/to/peep-cc ~/bin/clang      called by another name it runs the first other program of that name in the path
    peep-cc --peep-report [LOG|FOLDER]..    what was saved, object by object; by default of peep-cc.log here
    peep-cc --peep-settings                 the settings as they are here
    peep-cc --peep-help                     this page

All other arguments go to the compiler. A file in C or C++ that is compiled to one object (-c) with -mcpu=cortex-m0, m0plus or m1 is compiled to assembly, its supported
functions are rewritten by the tables, and the resulting object is kept if its code is smaller. In every other case, and whenever something fails, the object is the
compiler's own; the log says why.

Settings come from the environment, then from the file peep-cc.toml in this folder or above:

    PEEP_CC       compiler   the compiler, with words of its own if need be (arm-none-eabi-gcc)
    PEEP          program    the program peep (the one that ./peep built, or peep in the path)
    PEEP_TABLES   tables     the tables, joined by colons, or a list in the file (those of the folder tables/)
    PEEP_LEARN    learn      1 or true: tables are learnt from each file, too, which takes a second or more
    PEEP_LOG      log        the log (peep-cc.log beside peep-cc.toml, or where the compiler runs); empty: none
    PEEP_KEEP     keep       1 or true: the shorter listing is kept beside the object, as OBJECT.peep.s
    PEEP_SECONDS  seconds    how long one run of peep may take (300)
"""


def tell_settings(settings: Settings) -> int:
    """Prints the settings."""
    print(f"compiler  {' '.join(settings.compiler)}")
    print(f"program   {settings.program or 'none'}")
    print(f"tables    {' '.join(settings.tables) or 'none'}")
    print(f"learn     {'yes' if settings.learns else 'no'}")
    print(f"log       {settings.log or 'none'}")
    print(f"keep      {'yes' if settings.keeps_listings else 'no'}")
    print(f"seconds   {settings.seconds:g}")
    if settings.wrong:
        print(f"wrong     {settings.wrong}")
    return 1 if settings.wrong else 0


def own_command(words: list[str], settings: Settings) -> int:
    """Carries out a command of the driver's own."""
    if words == ["--peep-help"]:
        print(HELP, end="")
        return 0
    if words == ["--peep-settings"]:
        return tell_settings(settings)
    if words[0] == "--peep-report":
        # loaded here only, since a compilation doesn't use it
        from .report import report

        return report(words[1:], settings.log)
    print(f"peep-cc: {words[0]}: --peep-help tells what there is", file=sys.stderr)
    return 2


def main(called: str, words: list[str]) -> int:
    """Runs a command line; `called` is the name by which the driver was called."""
    settings = settings_for(os.path.basename(called), os.getcwd())
    if words and words[0].startswith("--peep-"):
        return own_command(words, settings)
    asked = compilation(words)
    if isinstance(asked, str):
        return plain(settings, words)
    return make(asked, settings, words)
