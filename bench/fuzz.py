"""Changes tables, listings and cost files at random, runs every command on them, and checks each run.

Use: fuzz.py PROGRAM RUNS SEED FOLDER, where PROGRAM is built from runs/proved.rs and FOLDER has listings. Prints how many runs of each command ended with each
status, how many tables of each version were fetched, and how many of these were accepted. JOBS (2) processes run at a time.

A refused run has to leave all as it was. So has a run that met a fault, except that the names are kept whose keep came before the fault. What `upgrade`, `trim`
and `generalise` keep is compared with the given table.
"""

import collections
import os
import random
import re
import subprocess
import sys
from concurrent.futures import ThreadPoolExecutor

PROGRAM, RUNS, SEED, FOLDER = sys.argv[1], int(sys.argv[2]), int(sys.argv[3]), sys.argv[4]
TOP = os.path.join(os.path.dirname(os.path.abspath(__file__)), "..")
# runs per process
BATCH = 5_000
# the longest that a run may take, in microseconds
LONGEST = 10_000_000
# what a refusal may say, according to docs/COMMANDS.md
FAULTS = {
    "table": rb"table \d+|states \d+|wide \d+|entry \d+ (1|2 \d+|3|4 \d+|5 \d+)|family \d+ (1|2 \d+|3)",
    "listing": rb"listing \d+ ([1236]|4 -?\d+|5 \d+)",
}
REFUSALS = {
    "rewrite": rb"%(table)s|%(listing)s|address \d+|inside \d+",
    "audit": rb"%(table)s",
    "learn": rb"costs \d+|%(listing)s|wide \d+|full \d+",
    "export": rb"table \d+|number|entry \d+ 1|family \d+ 1",
    "trace": rb"%(listing)s|label",
    "demo": rb"full \d+",
    "tidy": rb"%(listing)s",
    "upgrade": rb"%(table)s|full \d+",
    "trim": rb"%(table)s",
    "generalise": rb"%(table)s|number|symbol (1|2 \d+|3 \d+)|full \d+",
}
DONE = {
    "rewrite": rb"replaced \d+\ninstructions \d+ \d+\n(image \d+\n)?",
    "tidy": rb"tidied \d+\ninstructions \d+ \d+\n",
    "audit": rb"entries \d+ open \d+\n",
    "learn": rb"entries \d+ open \d+ states \d+\n",
    "export": rb"variables \d+ clauses \d+ lines \d+\n",
    "demo": rb"demo \d+\nentries \d+ open \d+ states \d+\nreplaced \d+\ninstructions \d+ \d+\nimage \d+\n",
    "trace": rb"(load [0-9a-f]{8} [124]\n|store [0-9a-f]{8} [124] [0-9a-f]{8}\n|(call|left|fault|astray)( [0-9a-f]{8})+\n|sys \d+( [0-9a-f]{8})*\n|fell\n)*"
    rb"steps \d+ (going|left|fault|astray|fell|wants)\n",
    "upgrade": rb"entries \d+ open \d+\n",
    "trim": rb"lines \d+ \d+\n",
    "generalise": rb"families \d+ lines \d+\n",
}
REFUSED = {word: re.compile(rb"refused (" + said % {name.encode(): fault for name, fault in FAULTS.items()} + rb")\n") for word, said in REFUSALS.items()}
DONE = {word: re.compile(said) for word, said in DONE.items()}
EDGES = b"0 1 2 3 4 5 6 7 8 9 15 16 17 24 31 32 33 43 64 65 97 98 99 100 127 128 254 255 256 1020 1024 1025 4095 65535 65536 200000 200001 999999 5000000 16777216 268435456 2147483647 2147483648 4294967295 4294967296 18446744073709551615 18446744073709551616 00 01 0x10 -1 -2147483648".split()

ENTRIES = [
    b"entry\nleft lsls r0, r0, #24\nleft lsrs r0, r0, #24\nright uxtb r0, r0\nmask r0\nproof\n",
    b"entry\nleft mov r0, r0\nmask r0 n z c v\nproof\n",
    b"entry\nleft mov r0, r1\nleft mov r1, r0\nright mov r0, r1\nmask r0 r1 n z c v\nproof\n",
    b"entry\nleft movs r0, r0\nmask z\nproof\n99 68 0 98 0\n100 0 98 0\n",
    b"entry\nleft movs r0, r0\nright movs r0, r0\nmask z\nproof\n99 68 0 98 0\n7 d 1 2 0\n",
    b"entry\nleft mvns r0, r0\nleft adds r0, #24\nright mvns r0, r0\nright adds r0, #24\nmask r0 n z\nproof\n",
    b"entry\nleft eors r0, r1\nright eors r0, r1\nmask r0 c\nproof\nopen 0\n99 1 0 1 0\nopen 3\n",
]
# for versions 3 and 4: entries that can be generalised, with families of them, true ones and false ones
RAISED = b"entry\nleft movs r0, #24\nleft adds r1, r1, r0\nright adds r1, #24\nmask r1 n z c v\nproof\n"
ZEROED = b"entry\nleft movs r0, #0\nright eors r0, r0\nmask z\nproof\n"
CUT = b"entry\nleft lsls r1, r0, #24\nleft lsrs r1, r1, #24\nright uxtb r1, r0\nmask r1\nproof\n".replace(b"r1", b"r2").replace(b"r0", b"r1").replace(b"r2", b"r0")
FAMILIES = [
    b"family 1 24 0 255\nproof\n",
    b"family 1 24 20 24\nproof\n",
    b"family 1 0 0 0\nproof\n31 0 1 2 3 4 5 6 7 8 11 14 17 20 23 26 29 30 0\n",
    b"family 1 0 0 0\nproof\n31 45 0 8 7 11 0\n32 d 11 0\n33 0 6 5 4 3 2 1 31 14 17 20 23 26 29 30 0\n34 46 0 33 0\n",
    b"family 1 0 0 1\nproof\n30 0 1 2 3 4 5 6 7 10 0\n",
    b"family 2 24 24 24\nproof\n",
]
LISTINGS = [
    b"f:\n\tlsls r0, r0, #24\n\tlsrs r0, r0, #24\n\tmov r1, r0\n\tmov r0, r1\n\tbx lr\n",
    b"\t.cpu cortex-m0\n\t.syntax unified\n\t.code\t16\n\t.thumb_func\n\t.type\tf, %function\nf:\n\tldr\tr3, .L2\n\tldr\tr0, [r3]\n\tlsls\tr0, r0, #24\n\tlsrs\tr0, r0, #24\n\tbx\tlr\n"
    b".L3:\n\t.align\t2\n.L2:\n\t.word\t1073741824\n\t.size\tf, .-f\n",
    b"f:\npush {r4, lr}\nbl ext\nmov r0, r0\nbeq f\npop {r4, pc}\n.set ext, 0x1000\n",
    b"x:\nsvc #5\nbkpt #1\nstrb r0, [r0]\nldmia r1!, {r2, r3}\nb x\n.align 2\nw: .word f+4\n.word 0xabcdef01\n",
    b"f:\neors r0, r1\neors r0, r1\nadds r0, #1\nrsbs r0, r0, #0\nbx lr\n",
    b"f:\n\tmovs r2, #200\n\tadds r3, r3, r2\n\tmovs r2, #24\n\tadds r4, r4, r2\n\tmovs r2, #0\n\tmuls r2, r3, r2\n\tbx lr\n",
    b"f: beq a\nmovs r0, #1\nb e\nnop\na: b c\ne: bx lr\nbl f\nc: b d\nd: b e\n",
]
COSTS = [b"costs 1\n", b"costs 1\nmuls 32\n", b"costs 1\nmuls 64\nadds 2\nrevsh 1\nmov 5\n", b"costs 1\ncmp 0\n", b"costs 1\nmovs 2\nmovs 3\n"]
TABLE_COMMANDS = ["rewrite t l o i", "rewrite t l o -", "rewrite t l l i --base 256", "audit t", "export t 1 o i", "export t 2 o o", "export t 3 o i", "upgrade t o", "upgrade t t", "trim t o", "trim t t",
    "generalise t {number} {value} {low} {high} o", "generalise t 1 24 0 255 o", "generalise t 1 {value} {value} {value} t"]
LISTING_COMMANDS = ["trace l f 500", "trace l x 100", "tidy l o", "tidy l l --base 256", "learn l o {options}", "learn l o --left 2 --regs 2 --pool 255 --budget 2", "learn l o {options} --costs t", "learn l l {options} --costs t"]
OPTIONS = ["--regs 1", "--regs 2", "--left 1", "--pool 1", "--pool 0,255", "--budget 1", "--budget 9", "--seed 0", "--scratch 1", "--scratch 0"]


def read(name):
    with open(name, "rb") as file:
        return file.read()


def changed(rng, text, others):
    """The text with one random change."""
    how = rng.randrange(10)
    at = rng.randrange(len(text) + 1)
    if how == 0:
        return text[:at] + bytes([rng.randrange(256)]) + text[at + 1 :]
    if how == 1:
        return text[:at] + bytes([rng.choice(b"\n \t\r,:#-+0129arxz@\x00\xff")]) + text[at:]
    if how == 2:
        return text[:at] + text[at + 1 :]
    if how == 3:
        return text[:at]
    if how in (4, 5):
        numbers = list(re.finditer(rb"\d+", text))
        if numbers:
            found = rng.choice(numbers)
            return text[: found.start()] + rng.choice(EDGES) + text[found.end() :]
    lines = text.splitlines(keepends=True)
    if not lines:
        return rng.choice(others)
    one, two = rng.randrange(len(lines)), rng.randrange(len(lines))
    if how == 6:
        lines[one], lines[two] = lines[two], lines[one]
    elif how == 7:
        lines.insert(two, lines[one])
    elif how == 8:
        del lines[one]
    else:
        lines.insert(two, rng.choice(rng.choice(others).splitlines(keepends=True) or [b"\n"]))
    return b"".join(lines)


def mutated(rng, text, others, most):
    """The text with up to `most` random changes, most of them from the last line of states on."""
    for _ in range(rng.randrange(most + 1)):
        at = text.rfind(b"state ") if rng.random() < 0.7 else 0
        at = max(at, 0)
        text = text[:at] + changed(rng, text[at:], others)
    return text


def headers(states):
    """Headers of each version, with the lines of the states."""
    for version in range(1, 5):
        for budget, pool, left in ((1, b"24 255", 2), (20, b"0 24", 2), (20000, b"0", 1)):
            if version == 4 and left == 2:
                pool = b"0" if budget == 20 else b"24"
            yield b"peep %d\nregs 2\nleft %d\nseed 42\nbudget %d\npool %s\n" % (version, left, budget, pool) + b"scratch %d\n" % (budget == 20) * (version > 1) + (
                b"costs" + b" 1" * 16 + b" 32" + b" 1" * 11 + b"\n"
            ) * (version > 3) + states


def tables_of(states):
    """Tables with no entry, one, two or three, and with families."""
    for header in headers(states):
        yield header + b"end\n"
        yield header + b"".join(ENTRIES[:3]) + b"end\n"
        for entry in [*ENTRIES, RAISED, ZEROED, CUT]:
            yield header + entry + b"end\n"
            yield header + b"state ffffffff 00000000 00000000 00000000 0\n" + entry + b"end\n"
        if header[5] > ord("2"):
            for family in FAMILIES:
                for entries in (RAISED, ZEROED, RAISED + ZEROED, ZEROED + RAISED, b""):
                    yield header + entries + family + b"end\n"
            yield header + RAISED + FAMILIES[0] + FAMILIES[1] + b"end\n"
            yield header + ZEROED + RAISED + FAMILIES[2] + FAMILIES[5] + FAMILIES[3] + b"end\n"


def piece(rng, text):
    """Some lines of a listing."""
    lines = text.splitlines(keepends=True)
    at = rng.randrange(len(lines))
    return b"".join(lines[at : at + rng.randrange(1, 40)])


def fail(what, line, told):
    sys.exit(f"{what}:\n{line}\n{told}")


def names_of(words):
    """The names that a command with these words fetches and keeps, in order."""
    names = [word for word in words if word in ("t", "l", "o", "i", "-")]
    if words[0] in ("audit", "trace"):
        return names[:1], []
    if words[0] == "rewrite":
        return names[:2], [name for name in names[2:] if name != "-"]
    if words[0] == "learn":
        return names[:1] + names[2:], names[1:2]
    return names[:1], names[1:]


def without_proofs(table):
    """A table's lines without those of proofs of entries and families; those of logs stay."""
    kept, is_proof = [], False
    for line in table.split(b"\n"):
        word = line.split(b" ")[0]
        if word in (b"proof", b"open", b"entry", b"family", b"end", b""):
            is_proof = word == b"proof"
        elif is_proof:
            continue
        kept.append(line)
    return kept


def raised(table, least):
    """A table with its version set to `least` if it is lower."""
    head, rest = table.split(b"\n", 1)
    version = int(head.split()[1])
    if version == 1:
        rest = re.sub(rb"(\npool [^\n]*\n)", rb"\1scratch 0\n", rest, count=1)
    return b"peep %d\n%s" % (max(version, least), rest)


def is_kept(words, table, printed, out):
    """Whether what upgrade, trim or generalise keeps is correctly made from the table."""
    numbers = [int(word) for word in printed.split() if word.isdigit()]
    if words[0] == "upgrade":
        return out == raised(table, 2)
    if words[0] == "trim":
        count = lambda text: text.count(b"\n") - len(without_proofs(text)) + 1
        return without_proofs(out) == without_proofs(table) and len(out) <= len(table) and numbers == [count(table), count(out)]
    body, family = raised(table, 3).removesuffix(b"end\n"), b"family %s\nproof\n" % " ".join(words[2:6]).encode()
    lines = out.removeprefix(body + family)
    return out.startswith(body + family) and lines.endswith(b"end\n") and numbers == [out.count(b"\nfamily "), lines.count(b"\n") - 1]


def text_of(held, given):
    """The held text, if the answer gives it."""
    return None if held == "-" else given if held == "=" else bytes.fromhex(held[1:])


def check(line, told):
    """Checks the result of a run, and returns its status."""
    fields = told.split()
    if len(fields) != 8:
        fail("no answer", line, told)
    status, time = int(fields[0]), int(fields[1])
    printed = bytes.fromhex(fields[3][1:])
    table, listing = (bytes.fromhex(word[1:]) for word in line.split()[:2])
    call, put = (int(word) for word in line.split()[2:4])
    words = line.split()[4:]
    before = {"t": "=", "l": "=", "o": "-", "i": "-"}
    held = dict(zip("tloi", fields[4:]))
    fetches, keeps = names_of(words)
    if time > LONGEST:
        fail("too long", line, told)
    # the names that may have been kept before a fault
    reached = keeps[: max(call - len(fetches), 0)] if status == 3 else keeps
    stays = all(held[name] == before[name] for name in "tloi" if name not in reached)
    if status == 0:
        good = DONE[words[0]].fullmatch(printed) and stays
        if words[0] in ("upgrade", "trim", "generalise"):
            given = {"t": table, "l": listing}.get(keeps[0], b"")
            good = good and is_kept(words, table, printed, text_of(held[keeps[0]], given))
    elif status == 1:
        good = REFUSED[words[0]].fullmatch(printed) and held == before
    elif status == 3:
        good = 0 < call <= len(fetches) + len(keeps) and not printed and stays
    elif status == 4:
        # a refusal's line that couldn't be put, or all is kept
        good = put == 1 and not printed and stays
    else:
        good = status == 2 and words[0] == "generalise" and not printed and held == before and any(int(word) > 255 for word in words[3:6])
    if not good:
        fail("no such answer", line, told)
    return status


def words_of(rng):
    """The words of a random run."""
    chance = rng.random()
    if chance < 0.005:
        return f"demo {rng.randrange(1, 60)}"
    words = rng.choice(TABLE_COMMANDS if chance < 0.6 else LISTING_COMMANDS)
    options = {word.split()[0]: word for word in ["--left 1", *rng.sample(OPTIONS, 3)]}
    value = rng.choice((0, 24, 24, 255, rng.randrange(257)))
    low, high = sorted((value, rng.randrange(257)))
    return words.format(number=rng.randrange(1, 4), value=value, low=low if rng.random() < 0.9 else high, high=rng.choice((high, value, 255)), options=" ".join(options.values()))


def batch_of(seed, tables, listings, long):
    """The input lines of one process."""
    rng = random.Random(seed)
    lines = []
    for _ in range(BATCH):
        words = words_of(rng)
        # often one of the two is unchanged, so that runs get further
        most = rng.choice([(1, 0), (3, 0), (0, 1), (0, 3), (2, 2), (0, 0)])
        if "--costs" in words:
            table = mutated(rng, rng.choice(COSTS), COSTS + tables[:1], most[0])
        else:
            table = mutated(rng, rng.choice(tables), tables, most[0])
        listing = mutated(rng, rng.choice(listings) if rng.random() < 0.5 else piece(rng, rng.choice(long)), listings, most[1])
        call, put = (rng.randrange(1, 6), rng.randrange(2)) if rng.random() < 0.05 else (0, 0)
        lines.append(f"x{table.hex()} x{listing.hex()} {call} {put} {words}")
    return lines


def run_batch(lines):
    """How many of a batch's runs ended with each status, by command, and by version of the fetched table."""
    ran = subprocess.run([PROGRAM], input="\n".join(lines).encode() + b"\n", stdout=subprocess.PIPE, stderr=subprocess.PIPE)
    told = ran.stdout.decode().splitlines()
    if ran.returncode != 0 or len(told) != len(lines):
        fail(f"stopped with {ran.returncode}, {ran.stderr[-200:]}", lines[len(told)] if len(told) < len(lines) else "", "")
    counts, versions = collections.Counter(), collections.Counter()
    for line, answer in zip(lines, told):
        status, words = check(line, answer), line.split()[4:]
        counts[words[0], status] += 1
        version = re.match(rb"peep ([1-4])\n", bytes.fromhex(line.split()[0][1:15])) if "t" in words and words[0] != "learn" else None
        if version:
            versions[int(version[1]), status] += 1
    return counts, versions


def main():
    states = b"".join(line for line in read(os.path.join(TOP, "examples", "moves.peep")).splitlines(keepends=True) if line.startswith(b"state "))
    tables = list(tables_of(states))
    listings = LISTINGS + [read(os.path.join(TOP, "examples", name)) for name in ("blink.s", "read.s", "sum.s")]
    long = [text for text in (read(os.path.join(FOLDER, name)) for name in sorted(os.listdir(FOLDER))) if text]
    counts, versions = collections.Counter(), collections.Counter()
    with ThreadPoolExecutor(int(os.environ.get("JOBS", "2"))) as pool:
        for more, other in pool.map(lambda at: run_batch(batch_of(SEED * 1_000_003 + at, tables, listings, long)), range(-(-RUNS // BATCH))):
            counts += more
            versions += other
            print(f"{sum(counts.values())} runs", file=sys.stderr, flush=True)
    for command in sorted({key[0] for key in counts}):
        said = ", ".join(f"{counts[key]} status {key[1]}" for key in sorted(counts) if key[0] == command)
        print(f"{command}: {said}")
    for version in range(1, 5):
        print(f"tables of version {version}: " + ", ".join(f"{versions[key]} status {key[1]}" for key in sorted(versions) if key[0] == version))
    print(f"{sum(counts.values())} runs, seed {SEED}: " + ", ".join(f"{sum(n for key, n in counts.items() if key[1] == status)} status {status}" for status in range(8) if any(key[1] == status for key in counts)))


main()
