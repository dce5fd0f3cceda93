"""Compares the instructions of a listing with what objdump reads in its image.

The addresses of the listing's lines are computed here independently: two bytes for an instruction, four for `bl` and other 32-bit instructions, four for each
word, and alignments. Both sides get one form: registers by number, lists in full, the target's address in place of a label or a distance, one register
fewer where the target is written twice, and one name where an instruction has two. objdump gets zeros for data and padding, so that it reads from
instruction to instruction."""

import re
import subprocess

from repeated import NAME, parts

LONG = {"bl", "dsb", "dmb", "isb", "mrs", "msr"}
ALIASES = {"ip": "r12", "fp": "r11", "sl": "r10", "sb": "r9", "sp": "r13", "lr": "r14", "pc": "r15"}
NAMES = {"ldm": "ldmia", "stm": "stmia", "bhs": "bcs", "blo": "bcc", "svc": "svc", "rsbs": "negs"}
BRANCHES = {"b", "bl", *(f"b{c}" for c in "eq ne cs cc mi pl vs vc hi ls ge lt gt le".split())}
ALIGN = re.compile(r"[ \t]*(\d+)[ \t]*(?:,[^,]*(?:,[ \t]*(\d+))?)?")


def laid_out(lines, base):
    """The instructions with their addresses, the addresses of names, and the ranges of bytes that are instructions."""
    at, names, instructions = base, {}, []
    for line in lines:
        labels, word, rest, _ = parts(line)
        word = word.strip()
        for name in re.findall(NAME, labels):
            names[name] = at
        if word in (".align", ".p2align"):
            power, most = ALIGN.match(rest).groups()
            need = -at % 2 ** int(power)
            at += need if most is None or need <= int(most) else 0
        elif word == ".word":
            at += 4 * len(rest.split(","))
        elif word in (".set", ".equ"):
            name, value = rest.split(",")
            names[name.strip()] = int(value, 0) & ~1
        elif word and not word.startswith((".", "#")):
            instructions.append((at, word.lower(), rest.strip()))
            at += 4 if word.lower() in LONG else 2
    return instructions, names


def register(text):
    return ALIASES.get(text, text)


def listed(text):
    """The registers of a list."""
    found = []
    for part in text.strip("{} ").split(","):
        first, _, last = (register(word.strip()) for word in part.partition("-"))
        found += [f"r{n}" for n in range(int(first[1:]), int((last or first)[1:]) + 1)]
    return found


def operand(text):
    text = text.strip()
    if text.startswith("{"):
        return ("list", *listed(text))
    if text.startswith("["):
        inner = [operand(part) for part in text.strip("[]").split(",")]
        return ("at", *(inner if len(inner) == 2 else [inner[0], 0]))
    if text.startswith("#"):
        return int(text[1:], 0)
    if text.endswith("!"):
        return register(text[:-1].strip()) + "!"
    return register(text.lower())


def operands(text):
    return [operand(part) for part in re.findall(r"(?:\{[^}]*\}|\[[^\]]*\]|[^,])+", text)]


def one_form(word, found):
    """An instruction in the form that both sides are brought to."""
    word = NAMES.get(word, word)
    if word == "negs":
        found = found[:2]
    if word == "nop" or (word, found) == ("mov", ["r8", "r8"]):
        return ("nop",)
    if word in ("dsb", "dmb", "isb"):
        return (word,)
    if word == "muls" and len(found) == 3:
        found = [found[0], found[1] if found[2] == found[0] else found[2]]
    elif len(found) == 3 and found[0] == found[1] and not isinstance(found[0], tuple):
        found = [found[0], found[2]]
    return (word, *found)


def address(text, names):
    """The value of a name, with a number added if one follows it."""
    name, number = re.fullmatch(rf"({NAME})[ \t]*([+-][ \t]*\w+)?", text.strip()).groups()
    return names[name] + int((number or "0").replace(" ", ""), 0) if name in names else None


def of_listing(word, rest, names):
    if word in BRANCHES:
        return (word, address(rest, names))
    if word in ("ldr", "adr") and "[" not in rest and "#" not in rest:
        target, _, name = rest.partition(",")
        return (word, register(target.strip()), address(name, names))
    return one_form(word, operands(rest) if rest else [])


def of_objdump(word, rest):
    word = re.sub(r"\.[nw]$", "", word)
    code, _, comment = rest.partition("@")
    code = code.partition(";")[0].partition("<")[0].strip()
    comment += rest.partition(";")[2]
    if word in BRANCHES:
        return (word, int(code, 16))
    if word in ("ldr", "add") and ("[pc" in code or ", pc, #" in code):
        return ("ldr" if word == "ldr" else "adr", register(code.partition(",")[0]), int(re.search(r"0x[0-9a-f]+", comment).group(), 16))
    return one_form(word, operands(code) if code else [])


def read_back(image, base, instructions, folder):
    """What objdump reads at each address: two words, the mnemonic and the rest."""
    kept = bytearray(len(image))
    for at, word, _ in instructions:
        size = 4 if word in LONG else 2
        kept[at - base : at - base + size] = image[at - base : at - base + size]
    (folder / "masked.bin").write_bytes(kept)
    run = subprocess.run(
        ["arm-none-eabi-objdump", "-D", "-b", "binary", "-m", "arm", "-M", "force-thumb", f"--adjust-vma={base:#x}", folder / "masked.bin"],
        capture_output=True, text=True, check=True,
    )
    found = {}
    for line in run.stdout.splitlines():
        fields = line.split("\t")
        if len(fields) >= 3 and fields[0].strip().endswith(":"):
            found[int(fields[0].strip()[:-1], 16)] = (fields[2].strip(), "\t".join(fields[3:]).strip())
    return found


def differences(text, image, base, folder):
    """The lines whose instruction objdump reads differently, and how many instructions there are."""
    instructions, names = laid_out(text.splitlines(), base)
    found = read_back(image, base, instructions, folder)
    wrong = []
    for at, word, rest in instructions:
        ours = of_listing(word, rest, names)
        theirs = of_objdump(*found[at]) if at in found else None
        if ours != theirs:
            wrong.append(f"{at:#x}: {word} {rest}, read as {' '.join(found.get(at, ['nothing']))}")
    return wrong, len(instructions)
