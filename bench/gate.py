#!/usr/bin/env python3
"""Runs the gate from nothing, at the top of the repository, and writes what it took: for each crate the processor seconds of its proof, its tests and its
must-fail edits, user and system time together, as a table of docs/MEASURED.md.

    bench/gate.py [--each] [NAME..]      --each: also each edit's seconds, the longest first; NAME..: only these crates and those that they use
    bench/gate.py --watch                measures a run of the gate that was started elsewhere on this machine

It runs `rt ci` from a folder of links to the toolchain, in which this script replaces the prover, runs it and records the time that it and its child processes
took. What the run caches goes into that folder and is removed with it, so it saves the gate nothing. A crate's only edit is checked from nothing. Where there are
more, the crate as it stands is checked from nothing first, and each edit over what that cached, as is the crate itself, once, after the last. The status is that
of `rt ci`. With --watch it looks every two seconds what each prover of the run has taken, so up to two seconds of each are missed.
"""
import contextlib
import json
import os
import shutil
import signal
import subprocess
import sys
import tempfile
import time

LOG, REAL = "GATE_LOG", "GATE_PROVER"


def note_of(words, at, seconds):
    """Returns the record of a prover's process: the crate, the part of the gate, and the seconds."""
    part = "edits" if "/rt-edit-" in at else "tests" if "--test" in words else "proof"
    return {"crate": words[words.index("--crate-name") + 1], "part": part, "seconds": seconds}


def prove():
    """Runs the prover with the given words, and records its time."""
    child = subprocess.Popen([os.environ[REAL], *sys.argv[1:]])
    for number in (signal.SIGTERM, signal.SIGINT):
        signal.signal(number, lambda given, _: child.send_signal(given))
    _, status, used = os.wait4(child.pid, 0)
    words = sys.argv[1:]
    if "--crate-name" in words:
        with open(os.environ[LOG], "a", encoding="utf-8") as log:
            log.write(json.dumps(note_of(words, os.getcwd(), used.ru_utime + used.ru_stime)) + "\n")
    if os.WIFSIGNALED(status):
        signal.signal(os.WTERMSIG(status), signal.SIG_DFL)
        os.kill(os.getpid(), os.WTERMSIG(status))
    return os.WEXITSTATUS(status)


def linked(kit, room):
    """Makes a folder of links to the toolchain, and returns the path of its `rt`."""
    os.mkdir(f"{room}/bin")
    for name in os.listdir(kit):
        if name != "bin":
            os.symlink(f"{kit}/{name}", f"{room}/{name}")
    for name in os.listdir(f"{kit}/bin"):
        if name.startswith("rt"):
            # (they look for the toolchain in their own folder)
            shutil.copy(f"{kit}/bin/{name}", f"{room}/bin/{name}")
        elif name != "rattle":
            os.symlink(f"{kit}/bin/{name}", f"{room}/bin/{name}")
    shutil.copy(os.path.realpath(__file__), f"{room}/bin/rattle")
    os.chmod(f"{room}/bin/rattle", 0o755)
    return f"{room}/bin/rt"


def edits_of(crate):
    folder = f"crates/{crate}/must-fail"
    return sorted(it for it in os.listdir(folder) if it.endswith(".edit")) if os.path.isdir(folder) else []


def kit():
    """Returns the toolchain's folder."""
    return os.path.dirname(os.path.dirname(os.path.realpath(shutil.which("rt"))))


def measured(names):
    """Runs the gate, and returns the records and its status."""
    with tempfile.TemporaryDirectory(prefix="gate-") as room:
        # (what a run passed is cached beside the toolchain's folder)
        os.mkdir(f"{room}/kit")
        rt, log = linked(kit(), f"{room}/kit"), f"{room}/log"
        ran = subprocess.run([rt, "ci", *names], env={**os.environ, LOG: log, REAL: f"{kit()}/bin/rattle"})
        with open(log, encoding="utf-8") as it:
            return [json.loads(line) for line in it], ran.returncode


def processes():
    """Returns, for each process number, its parent, its words, and the seconds that it and the children that it waited for have taken."""
    found, tick = {}, os.sysconf("SC_CLK_TCK")
    for number in filter(str.isdigit, os.listdir("/proc")):
        with contextlib.suppress(OSError):
            with open(f"/proc/{number}/cmdline", encoding="utf-8", errors="replace") as it:
                words = it.read().split("\0")
            with open(f"/proc/{number}/stat", encoding="utf-8", errors="replace") as it:
                fields = it.read().rsplit(")", 1)[1].split()
            found[int(number)] = int(fields[1]), words, sum(map(int, fields[11:15])) / tick
    return found


def is_below(found, number, gates):
    """Tells whether a process is a descendant of one of these."""
    while number in found and number not in gates:
        number = found[number][0]
    return number in gates


def watched():
    """Records what the provers of a gate take that runs elsewhere, until it ends."""
    notes = {}
    while True:
        found = processes()
        gates = [number for number, (_, words, _) in found.items() if words[2:3] == ["ci"] and os.path.basename(words[1]) == "rt"]
        if not gates:
            return [*notes.values()], 0
        for number, (_, words, seconds) in found.items():
            if "--crate-name" in words and is_below(found, number, gates):
                with contextlib.suppress(OSError):
                    at = os.readlink(f"/proc/{number}/cwd")
                    notes[number, words[words.index("--crate-name") + 1]] = note_of(words, at, seconds)
        time.sleep(2)


def table(notes):
    """Prints the table, and returns the total of the seconds, and those of each edit with its name."""
    parts, rows, each = ("proof", "tests", "edits"), {}, []
    for note in notes:
        row = rows.setdefault(note["crate"], {it: [] for it in parts})
        row[note["part"]].append(note["seconds"])
    print("\n| crate | proof | tests | edits | all |\n|---|---|---|---|---|")
    total = [0.0] * 4
    for crate, row in sorted(rows.items()):
        sums = [sum(row[it]) for it in parts]
        sums.append(sum(sums))
        total = [x + y for x, y in zip(total, sums)]
        print(f"| `{crate}` | " + " | ".join(f"{it:.0f}" for it in sums) + " |")
        each += [(seconds, f"{crate}/{edit}") for edit, seconds in zip([*edits_of(crate), "the crate itself"], row["edits"])]
    print("| all | " + " | ".join(f"{it:.0f}" for it in total) + " |")
    return total[3], each


def main():
    words, begun = sys.argv[1:], time.time()
    notes, status = watched() if "--watch" in words else measured([it for it in words if it != "--each"])
    took = time.time() - begun
    total, each = table(notes)
    with open(f"{kit()}/KIT-ID", encoding="utf-8") as it:
        print(f"\n{total / 60:.0f} processor minutes, {took / 60:.0f} by the clock, {os.cpu_count()} processors, {it.read().strip()}")
    if "--each" in words:
        print("".join(f"{seconds:6.1f} {edit}\n" for seconds, edit in sorted(each, reverse=True)), end="")
    return status


if __name__ == "__main__":
    sys.exit(prove() if os.path.basename(sys.argv[0]) == "rattle" else main())
