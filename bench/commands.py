#!/usr/bin/env python3
"""Runs the commands that the pages show, in order, and compares what each prints with what its page says.

Use: bench/commands.py [PAGE..], by default README.md and all pages of docs/.

A command is an indented line that begins with one of PROGRAMS. Its expected output follows two blanks and `# `, and continues in indented lines that begin
with `# `; without these it prints nothing. Printed lines are joined by `, `, several blanks count as one, and `..` stands for any text. Commands run in a copy
of the files that git tracks, one copy per page. A command whose tool is missing is reported and skipped, and so is `rt`, which is the gate."""
import re
import shutil
import subprocess
import sys
import tempfile
from pathlib import Path

TOP = Path(__file__).resolve().parent.parent
PROGRAMS = ("./peep", "examples/", "driver/", "arm-none-eabi-", "qemu-system-arm", "cadical", "python3", "cat ", "diff ", "(sleep ", "rt ")
TOOLS = re.compile(r"(?<![\w/.])(arm-none-eabi-\w+|qemu-system-arm|cadical|rt)(?= )")
SECONDS = 600


def whole_lines(text):
    """The lines with their numbers. A line that ends with a backslash continues in the next."""
    begun, first = "", 0
    for number, line in enumerate(text.splitlines(), 1):
        if line.endswith("\\"):
            begun, first = begun + line[:-1].rstrip() + " ", first or number
        else:
            yield first or number, begun + (line.lstrip() if begun else line)
            begun, first = "", 0


def commands(text):
    """Each command of a page with its line number and its expected output."""
    found = []
    for number, line in whole_lines(text):
        if not line.startswith("    "):
            continue
        line = line.strip()
        if line.startswith("# ") and found:
            found[-1][2] = ", ".join(filter(None, (found[-1][2], line[2:].strip())))
        elif line.startswith(PROGRAMS):
            command, _, said = line.partition("  # ")
            found.append([number, command.strip(), said.strip()])
    return found


def fits(said, printed):
    """Whether the printed text is the expected one."""
    parts = (re.escape(" ".join(part.split())) for part in said.split(".."))
    return re.fullmatch(".*".join(parts).replace(r"\ .*", ".*").replace(r".*\ ", ".*"), printed, re.DOTALL) is not None


def copied(folder):
    """Copies the repository's files, and the program if it is built, into the folder."""
    names = subprocess.run(["git", "ls-files", "-z"], cwd=TOP, capture_output=True, check=True).stdout.decode().split("\0")
    program = "crates/peep/out/peep"
    for name in filter(None, names + [program]):
        if (TOP / name).is_file():
            (folder / name).parent.mkdir(parents=True, exist_ok=True)
            shutil.copy2(TOP / name, folder / name)


def try_page(page, folder):
    """Runs a page's commands in the folder; returns how many printed something else."""
    wrong = 0
    for number, command, said in commands((TOP / page).read_text()):
        missing = [tool for tool in TOOLS.findall(command + " ") if tool == "rt" or not shutil.which(tool)]
        if missing:
            print(f"{page}:{number}: left out, for want of {missing[0]}: {command}")
            continue
        # a command that takes longer is stopped, with status 124
        run = subprocess.run(["timeout", str(SECONDS), "bash", "-c", command], cwd=folder, capture_output=True, stdin=subprocess.DEVNULL)
        printed = ", ".join(" ".join(line.split()) for line in run.stdout.decode(errors="replace").splitlines() if line.strip())
        if fits(said, printed):
            print(f"{page}:{number}: as said: {command}")
        else:
            wrong += 1
            print(f"{page}:{number}: {command}\n  said:    {said}\n  printed: {printed}\n  status:  {run.returncode} {run.stderr.decode().strip()}")
    return wrong


def main():
    pages = sys.argv[1:] or ["README.md", *sorted(str(path.relative_to(TOP)) for path in (TOP / "docs").glob("*.md"))]
    subprocess.run([TOP / "peep"], capture_output=True)  # builds the program where it isn't yet
    wrong = 0
    for page in pages:
        with tempfile.TemporaryDirectory() as folder:
            copied(Path(folder))
            wrong += try_page(page, Path(folder))
    sys.exit(wrong > 0)


main()
