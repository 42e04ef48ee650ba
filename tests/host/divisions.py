#!/usr/bin/env python3
"""Finds divisions by anything but a power of two. Prints each with its line, and exits 1 if there is one.

divisions.py sources ROOT CRATE...         in the code of the crates, and of those that they stand on by ROOT/crates.txt
divisions.py object FILE [FUNCTION...]     in machine code, which has to have the functions: divide instructions, calls of
                                           routines that divide, and products of which the upper half is taken
"""

import pathlib
import re
import subprocess
import sys

# None of these is code.
ASIDE = re.compile(r"//[^\n]*|^\s*ghost use [^;]*;|b?\"(?:\\.|[^\"\\])*\"|b?'(?:\\.|[^'\\])'", re.MULTILINE)
CONTRACT = re.compile(r"^\s*(?:requires|ensures)(?:\s+\w+)?\s*\{", re.MULTILINE)
# What this check cannot read counts as a division.
RAW_STRING = re.compile(r"\bb?r#*\"")
# With the divisor, if that is one whole literal: no call, field or further digit follows.
QUOTIENT = re.compile(r"[/%]=?\s*(?:(0x[0-9A-Fa-f_]+|0b[01_]+|[0-9][0-9_]*)(?:[ui](?:8|16|32|64|128|size))?(?!\w|\s*[.(\[]))?")

# As div, idiv and divsd.
DIVIDE = re.compile(r"[a-z]{0,2}div[a-z]*")
# As __udivti3, which a compiler calls where there is no instruction.
ROUTINE = re.compile(r"__u?(?:div|mod)[a-z]*[0-9]")
# What a compiler takes in place of a quotient by a constant, of numbers as wide as a register: known by its one operand or its
# name.
UPPER_HALF = re.compile(r"i?mul[bwlq]?\s+[^,]+|mulx\s.*|v?pmulh.*")


def blank(text):
    """As many blanks, with the lines kept."""
    return re.sub(r"[^\n]", " ", text)


def code_of(text):
    """The code alone, each piece at its place."""
    text = ASIDE.sub(lambda found: blank(found.group()), text)
    while contract := CONTRACT.search(text):
        end, depth = contract.end(), 1
        while depth:
            depth += {"{": 1, "}": -1}.get(text[end], 0)
            end += 1
        text = text[: contract.start()] + blank(text[contract.start() : end]) + text[end:]
    return text


def is_power_of_two(literal):
    digits = literal.replace("_", "")
    number = int(digits) if digits.isdigit() else int(digits, 0)
    return number > 0 and number & (number - 1) == 0


def quotients(text):
    """The number of each line that divides, from 1 up, and whether it is by a power of two."""
    if raw := RAW_STRING.search(text):
        yield text.count("\n", 0, raw.start()) + 1, False
        return
    code = code_of(text)
    for found in QUOTIENT.finditer(code):
        yield code.count("\n", 0, found.start()) + 1, bool(found[1]) and is_power_of_two(found[1])


def crates_under(root, names):
    """These crates and all that they stand on. Behind a crate's name stands what is made of it, where that is a static library."""
    lines = (root / "crates.txt").read_text(encoding="utf-8").splitlines()
    parts = [line.split(":") for line in lines if ":" in line and not line.startswith("#")]
    listed = {crate.split()[0]: below for crate, below in parts}
    found, left = [], list(names)
    while left:
        name = left.pop()
        if name not in listed:
            sys.exit(f"{name} is not in crates.txt")
        if name not in found:
            found.append(name)
            left += listed[name].split()
    return sorted(found)


def in_sources(root, names):
    crates = crates_under(root, names)
    wrong, right = [], 0
    for crate in crates:
        files = sorted((root / "crates" / crate / "src").rglob("*.rt"))
        if not files:
            sys.exit(f"{crate} has no source")
        for file in files:
            text = file.read_text(encoding="utf-8")
            for number, by_power in quotients(text):
                if by_power:
                    right += 1
                else:
                    wrong.append(f"{file.relative_to(root)}:{number}: {text.splitlines()[number - 1].strip()}")
    if not wrong and not right:
        sys.exit("no quotient at all, so that nothing can have been looked at")
    return wrong, f"{right} quotients and remainders in {len(crates)} crates, all by powers of two"


def is_division(instruction):
    """Operands that go through memory have their commas in brackets."""
    operands = re.sub(r"\([^)]*\)", "", instruction)
    return any(map(DIVIDE.fullmatch, instruction.split())) or UPPER_HALF.fullmatch(operands)


def in_object(file, functions):
    run = subprocess.run(["objdump", "-dr", "--no-show-raw-insn", file], capture_output=True, text=True)
    if run.returncode:
        sys.exit(run.stderr.strip())
    wrong, seen, instructions = [], [], 0
    for line in run.stdout.splitlines():
        if start := re.match(r"[0-9a-f]+ <(.*)>:$", line):
            seen.append(start[1])
        elif call := re.match(r"\s+[0-9a-f]+: R_\w+\s+([^\s+-]+)", line):
            if ROUTINE.fullmatch(call[1]):
                wrong.append(f"{file}: {seen[-1]}: calls {call[1]}")
        elif instruction := re.match(r"\s+[0-9a-f]+:\t(.*)", line):
            instructions += 1
            if is_division(instruction[1].strip()):
                wrong.append(f"{file}: {seen[-1]}: {' '.join(instruction[1].split())}")
    if missing := [name for name in functions if name not in seen]:
        sys.exit(f"{file} has no {' and no '.join(missing)}")
    if not instructions:
        sys.exit(f"{file} has no machine code")
    return wrong, f"{instructions} instructions, none that divides"


def main(words):
    if len(words) >= 3 and words[0] == "sources":
        wrong, report = in_sources(pathlib.Path(words[1]), words[2:])
    elif len(words) >= 2 and words[0] == "object":
        wrong, report = in_object(words[1], words[2:])
    else:
        sys.exit(__doc__)
    print("\n".join(wrong) if wrong else report)
    sys.exit(1 if wrong else 0)


if __name__ == "__main__":
    main(sys.argv[1:])
