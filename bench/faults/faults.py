"""Runs every command with faults, and checks how each run ends, what it prints and what it leaves.

Use: faults.py PROGRAM LIBRARY RUNS, where LIBRARY is built from refuse.c and RUNS from runs/proved.rs. Prints how many faults of each kind occurred.
"""

import os
import subprocess
import sys
import tempfile
from concurrent.futures import ThreadPoolExecutor

PROGRAM, LIBRARY, RUNS = map(os.path.abspath, sys.argv[1:4])
TOP = os.path.join(os.path.dirname(os.path.abspath(__file__)), "..", "..")
WORDS = {3: b"store\n", 4: b"sink\n", 5: b"memory\n", 6: b"big\n", 7: b"missing\n"}
# limit for each run
SECONDS = 60
with open(os.path.join(TOP, "examples", "moves.peep"), "rb") as moves:
    TABLE = moves.read()
SUM = b"f:\n\tmov r3, r3\n\tadds r0, r0, r1\n\tmov r0, r0\n\tbx lr\n"
STATES = b"".join(line + b"\n" for line in TABLE.split(b"\n") if line.startswith(b"state "))
# a table of version 3 with a family that `rewrite` applies; one of version 4; a proof that can be trimmed; and a cost file
ZEROS = (
    b"regs 1\nleft 1\nseed 42\nbudget 20000\npool 0\nscratch 0\n%s" + STATES + b"entry\nleft movs r0, #0\nright eors r0, r0\nmask z\nproof\n"
    b"family 1 0 0 0\nproof\n31 45 0 8 7 11 0\n32 -44 0 1 0\n33 0 6 5 4 3 2 1 31 14 17 20 23 26 29 30 0\nend\n"
)
RAISED = (
    b"peep 3\nregs 2\nleft 2\nseed 42\nbudget 20000\npool 24\nscratch 0\n" + STATES + b"entry\nleft movs r0, #24\nleft adds r1, r1, r0\nright adds r1, #24\n"
    b"mask r1 n z c v\nproof\nfamily 1 24 0 255\nproof\nend\n"
)
BYTES = b"f:\n\tmovs r2, #200\n\tadds r3, r3, r2\n\tmovs r2, #0\n\tbx lr\n"
PROOF = b"peep 3\n" + ZEROS % b""
DEAR = b"peep 4\n" + ZEROS % (b"costs" + b" 1" * 27 + b" 64\n")
COSTS = b"costs 1\nmuls 32\nmovs 2\n"
CHAIN = b"f:\n\tbeq a\n\tbx lr\n\tnop\na:\tb c\nd:\tbx lr\nc:\tbx lr\n"
# the command's words, the number of names that it fetches, the names that it keeps, in order, and the contents of `t` and `l`
COMMANDS = {
    "rewrite": ("rewrite t l o i", 2, ["o", "i"], TABLE, SUM),
    "rewrite by a family": ("rewrite t l o i", 2, ["o", "i"], RAISED, BYTES),
    "audit": ("audit t", 1, [], TABLE, SUM),
    "audit of version 4": ("audit t", 1, [], DEAR, SUM),
    "learn": ("learn l o --regs 1 --left 1 --pool 1", 1, ["o"], TABLE, SUM),
    "learn with a scratch register": ("learn l o --regs 1 --left 2 --pool 1 --scratch 1", 1, ["o"], TABLE, SUM),
    "learn by costs": ("learn l o --regs 1 --left 1 --pool 1 --costs t", 2, ["o"], COSTS, SUM),
    "export": ("export t 1 o i", 1, ["o", "i"], TABLE, SUM),
    "export of a family": ("export t 2 o i", 1, ["o", "i"], PROOF, SUM),
    "trace": ("trace l f 100", 1, [], TABLE, SUM),
    "demo": ("demo 1", 0, [], TABLE, SUM),
    "tidy": ("tidy l o", 1, ["o"], TABLE, CHAIN),
    "upgrade": ("upgrade t o", 1, ["o"], TABLE, SUM),
    "upgrade of version 4": ("upgrade t o", 1, ["o"], DEAR, SUM),
    "trim": ("trim t o", 1, ["o"], PROOF, SUM),
    "generalise": ("generalise t 1 0 0 0 o", 1, ["o"], DEAR, SUM),
    "generalise, which is refused": ("generalise t 1 0 0 9 o", 1, [], DEAR, SUM),
}

class Ended:
    """How a run ended, what it printed, and the files in its folder afterwards."""

    def __init__(self, folder, words, fault=None, **how):
        mark = folder + ".mark"
        environment = dict(os.environ)
        if fault:
            environment.update(LD_PRELOAD=LIBRARY, FAULT=fault, FAULT_MARK=mark)
        how = {"stdout": subprocess.PIPE, "stderr": subprocess.PIPE, **how}
        ran = subprocess.run([PROGRAM, *words], cwd=folder, env=environment, timeout=SECONDS, **how)
        self.status, self.out, self.told = ran.returncode, ran.stdout or b"", ran.stderr
        self.files = {}
        for name in os.listdir(folder):
            with open(os.path.join(folder, name), "rb") as file:
                self.files[name] = file.read()
        self.met = os.path.exists(mark)
        if self.met:
            os.remove(mark)


def fail(what, ended):
    sys.exit(f"{what}: status {ended.status}, printed {ended.out[:80]}, told {ended.told[:80]}, files {sorted(ended.files)}")


def run(words, fault=None, texts=(TABLE, SUM), **how):
    """Runs in a fresh folder with two texts."""
    with tempfile.TemporaryDirectory() as work:
        folder = os.path.join(work, "run")
        os.mkdir(folder)
        for name, text in zip("tl", texts):
            with open(os.path.join(folder, name), "wb") as file:
                file.write(text)
        return Ended(folder, words, fault, **how)


def is_promised(ended, whole, keeps):
    """Whether the run left what its status promises."""
    if ended.told != WORDS.get(ended.status, b""):
        return False
    if ended.status == whole.status:
        return ended.out == whole.out and ended.files == whole.files
    counts = range(len(keeps) + 1)
    # of the name that couldn't be kept nothing is promised
    but = [{n: t for n, t in ended.files.items() if n != name} for name in keeps]
    begun = [{n: t for n, t in whole.files.items() if n not in keeps[at:]} for at in counts]
    if ended.status == 3:
        return ended.out == b"" and (ended.files == begun[0] or any(but[at] == begun[at] for at in range(len(keeps))))
    if ended.status == 4:
        return whole.out.startswith(ended.out) and ended.files == whole.files
    if ended.status == 5:
        return ended.out == b"" and any(ended.files == files for files in begun)
    return ended.status == 7 and ended.out == b"" and ended.files == begun[0]


# Which statuses a fault may end with, 0 being that of the run without the fault. A vector that can't get double its size asks for exactly what it needs, so one
# refused growth may have no effect. A name that can't be opened is one that isn't found or can't be kept.
STATUSES = {
    "growth": {0, 5},
    "hunger": {5},
    "open": {3, 7},
    "read": {3},
    "write": {3, 4},
    "no_write": {3, 4},
    "short_read": {0},
    "short_write": {0},
}


def try_faults(command):
    """Causes each fault of the process in turn. Returns how many of each kind occurred, and what went wrong."""
    words, _, keeps, *texts = COMMANDS[command]
    whole = run(words.split(), texts=texts)
    if whole.status != ("refused" in command):
        fail(command, whole)
    counts, said = {}, []
    for kind, statuses in STATUSES.items():
        met = {}
        statuses = {status or whole.status for status in statuses}
        for number in range(1, 1_000_000):
            ended = run(words.split(), f"{kind}:{number}", texts)
            if not ended.met:
                break
            if ended.status not in statuses or not is_promised(ended, whole, keeps):
                fail(f"{words}, {kind} {number}", ended)
            met[ended.status] = met.get(ended.status, 0) + 1
        told = ", ".join(f"{count} status {status}" for status, count in sorted(met.items()))
        counts[kind] = sum(met.values())
        said.append(f"{kind} {counts[kind]}" + (f" ({told})" if met else ""))
    return counts, f"{command}: {'; '.join(said)}"


def try_calls(command):
    """Fails each call of a store in memory in turn, and the put."""
    words, fetches, keeps, table, listing = COMMANDS[command]
    calls = fetches + len(keeps)
    faults = [(0, 0), *((call, 0) for call in range(1, calls + 1)), (0, 1)]
    lines = "".join(f"x{table.hex()} x{listing.hex()} {call} {put} {words}\n" for call, put in faults)
    ran = subprocess.run([RUNS], input=lines.encode(), stdout=subprocess.PIPE, timeout=SECONDS, check=True)
    told = [line.split() for line in ran.stdout.decode().splitlines()]
    whole = told[0]
    if int(whole[0]) != ("refused" in command):
        sys.exit(f"{words}: {whole}")
    for (call, put), answer in zip(faults[1:], told[1:]):
        # t and l don't change; of o and i those are kept whose keep came before the fault
        done = len(keeps) if put else max(call - fetches - 1, 0)
        held = ["=", "=", *(whole[6 + at] if at < done else "-" for at in range(2))]
        if [answer[0], answer[3], *answer[4:]] != ["4" if put else "3", "x", *held]:
            sys.exit(f"{words}, call {call}, put {put}: {answer}")
    print(f"{command}: {calls} calls of a store in memory failed, and one put")
    return calls


def ends(what, words, status, out=None, how=None):
    """Makes a run that has to end with this status."""
    ended = run(words.split() if isinstance(words, str) else words, **(how or {}))
    word = {2: b"usage\n", **WORDS}.get(status, b"")
    if ended.status != status or ended.told != word or out is not None and ended.out != out:
        fail(what, ended)


def try_descriptors():
    closed = lambda: os.close(1)
    ends("standard output closed", "audit t", 4, how={"stdout": None, "preexec_fn": closed})
    with open("/dev/full", "wb") as full:
        ends("standard output full", "audit t", 4, how={"stdout": full})
    reader, writer = os.pipe()
    os.close(reader)
    ends("a pipe that nobody reads", "audit t", 4, how={"stdout": writer})
    os.close(writer)
    ends("standard output closed, for a refusal", "audit l", 4, how={"stdout": None, "preexec_fn": closed})
    ends("a folder as OUT", "rewrite t l . -", 3, b"")
    ends("a folder as TABLE", "audit .", 3, b"")
    ends("a full device as OUT", "rewrite t l /dev/full -", 3, b"")
    ends("a folder that isn't there", "rewrite t l no/o -", 3, b"")
    ends("a folder as the text of costs", "learn l o --costs .", 3, b"")
    ends("a text of costs without end", "learn l o --costs /dev/zero", 6, b"")
    ends("no text of costs", "learn l o --costs none", 7, b"")
    ends("a folder as a listing to be tidied", "tidy . o", 3, b"")
    ends("a listing without end to be tidied", "tidy /dev/zero o", 6, b"")
    for words in ("tidy l {}", "upgrade t {}", "trim t {}", "generalise t 1 0 0 0 {}", "export t 2 {} o", "export t 2 - {}", "learn l {} --regs 1 --left 1"):
        for name in (".", "/dev/full", "no/o"):
            ends(f"{name} as OUT of {words}", words.format(name), 3, b"", {"texts": (PROOF, CHAIN)})
    ends("a name too long", "audit " + "n" * 5000, 7, b"")
    ends("an empty name", ["audit", ""], 7, b"")
    ends("a name with a zero", ["audit", "no such name"], 7, b"")
    ends("a text without end", "audit /dev/zero", 6, b"")
    ends("words that aren't UTF-8", [b"audit", b"\xff"], 2, b"")
    with tempfile.TemporaryDirectory() as work:
        loop, sparse = os.path.join(work, "loop"), os.path.join(work, "sparse")
        os.symlink(loop, loop)
        ends("a link to itself", f"audit {loop}", 7, b"")
        with open(sparse, "wb") as file:
            file.truncate(67_108_865)
        for words in ("learn {} o", "learn l o --costs {}", "tidy {} o", "audit {}", "upgrade {} o", "trim {} o", "generalise {} 1 24 0 255 o", "export {} 1 o i", "rewrite t {} o i", "trace {} f 1"):
            ends("a byte more than the limit", words.format(sparse), 6, b"")
        with open(sparse, "wb") as file:
            file.truncate(67_108_864)
        for words, line in (("learn {} o", b"listing 1 6"), ("learn l o --costs {}", b"costs 1"), ("tidy {} o", b"listing 1 6"), ("upgrade {} o", b"table 1"), ("rewrite t {} o i", b"listing 1 6")):
            ends("as much as the limit", words.format(sparse), 1, b"refused " + line + b"\n")
        os.chmod(sparse, 0)
        if not os.access(sparse, os.R_OK):
            ends("a file that may not be read", f"audit {sparse}", 7, b"")
    print("descriptors and files: each as told")


def main():
    calls = sum(try_calls(command) for command in COMMANDS)
    sums = dict.fromkeys(STATUSES, 0)
    with ThreadPoolExecutor(int(os.environ.get("JOBS", "2"))) as pool:
        for counts, said in pool.map(try_faults, COMMANDS):
            print(said, flush=True)
            for kind, count in counts.items():
                sums[kind] += count
    print(f"all: {sum(sums.values())} faults, {', '.join(f'{kind} {count}' for kind, count in sums.items())}; {calls} calls of a store in memory and {len(COMMANDS)} puts")
    try_descriptors()


main()
