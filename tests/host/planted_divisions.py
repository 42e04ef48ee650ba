#!/usr/bin/env python3
"""Plants divisions in a copy of the sources and in small objects, and wants them found. The last line counts."""

import pathlib
import shutil
import subprocess
import sys
import tempfile

sys.dont_write_bytecode = True
from divisions import crates_under, quotients

HERE = pathlib.Path(__file__).resolve().parent
ROOT = HERE.parent.parent
LIBRARY = "birdcleft_c"

# Found are these, each by the line that has its division:
FOUND = (
    "d / 6", "d % 6", "d / width", "d % (8)", "d /6", "d / 0x30", "d / 0b110", "d / 8_0", "d / 12u8", "d / 8.max(n)", "d / 0",
    "8 / 4 / 3", "d / table[0]", "16 % d", "d / 6 // not by 8", "d / -8", "d / !8", "d\n        / 6", "d /\n        6",
    "d;\n    d /= 6", "d;\n    d %= 6", "if ensures { d / 6 } else { d }", "d / 06",
    'br"a"',
)
# These are not, being by a power of two, or no code.
LEFT = (
    "d / 8", "d % 2", "d/64", "d / 0x40", "d / 0b1000", "d / 1_024", "d % 16u8", "d / 128 as usize", "(d / 4) % 8", "d / 1", "d / 08",
    "d // / 6", "b'/'", 'b"a / 6"', "d >> 3 & 7", "d;\n    d %= 8",
)
# Contracts divide as the definitions do.
CONTRACTS = """
    requires { d / 6 < 40 }
    ensures cell { result.cell ≡ d / 6 }
    ensures both { result ≡ record { cell = d / 6; pixel = d % 6 } }
"""
OBJECTS = (
    ("quotient", "unsigned long f(unsigned long a, unsigned long b) { return a / b; }", "div"),
    ("remainder", "int f(int a, int b) { return a % b; }", "idiv"),
    ("fraction", "double f(double a, double b) { return a / b; }", "divsd"),
    ("wide", "unsigned __int128 f(unsigned __int128 a, unsigned __int128 b) { return a / b; }", "calls __udivti3"),
    ("six", "unsigned long f(unsigned long a) { return a / 6; }", "mul"),
    # Of a narrower number a quotient by 6 is a product like any other: this is the sources' to find.
    ("narrow", "unsigned f(unsigned a) { return a / 6; }", None),
    ("eight", "unsigned long f(unsigned long a) { return a / 8; }", None),
    ("product", "unsigned long f(unsigned long a, unsigned long *b) { return a * b[a]; }", None),
)

passed = failed = 0


def check(holds, what, said):
    global passed, failed
    if holds:
        passed += 1
    else:
        failed += 1
        print(f"FAILED: {what}: {said}")


def said_of(*words):
    """How the check ended, and what it printed."""
    run = subprocess.run([HERE / "divisions.py", *words], capture_output=True, text=True)
    return run.returncode, (run.stdout + run.stderr).strip()


def function(expression):
    return f"\nghost use Rattle.std.specs.Prelude.{{◌/◌, ◌%◌}};\nfn planted(d: usize) -> usize{CONTRACTS}{{\n    {expression}\n}}\n"


def line_that_divides(expression):
    """Counted from the expression's first."""
    return next((n for n, line in enumerate(expression.split("\n")) if "/" in line or "%" in line), 0)


def try_expressions():
    first = function("HERE").split("\n").index("    HERE") + 1
    for expression in FOUND + LEFT:
        wrong = [number for number, by_power in quotients(function(expression)) if not by_power]
        wanted = [first + line_that_divides(expression)] if expression in FOUND else []
        check(wrong == wanted, f"{expression!r} is {'found' if wanted else 'left'}", wrong)


def try_functions(file):
    """Behind each item of a file, so that nothing there hides what comes next."""
    text = file.read_text(encoding="utf-8")
    for end in (n for n in range(len(text)) if text.startswith("\n}\n", n)):
        planted = text[: end + 3] + function("d / 6") + text[end + 3 :]
        wrong = [planted.split("\n")[number - 1].strip() for number, by_power in quotients(planted) if not by_power]
        check(wrong == ["d / 6"], f"a division by 6 behind character {end} of {file.name}", wrong)


def try_crate(copy, crate):
    """As a user sees it: the line is printed, and the check has failed."""
    file = sorted((copy / "crates" / crate / "src").rglob("*.rt"))[-1]
    before = file.read_text(encoding="utf-8")
    file.write_text(before + function("d / 6"), encoding="utf-8")
    number = file.read_text(encoding="utf-8").split("\n").index("    d / 6") + 1
    ended, said = said_of("sources", copy, LIBRARY)
    check(ended == 1 and said == f"{file.relative_to(copy)}:{number}: d / 6", f"a division by 6 in {crate}", said)
    file.write_text(before, encoding="utf-8")


def try_sources(copy):
    shutil.copytree(ROOT / "crates", copy / "crates", ignore=shutil.ignore_patterns("proofs", "must-fail", "out"))
    shutil.copy(ROOT / "crates.txt", copy)
    ended, said = said_of("sources", copy, LIBRARY)
    check(ended == 0, "the sources as they are", said)
    for crate in crates_under(copy, [LIBRARY]):
        try_crate(copy, crate)
        for file in (copy / "crates" / crate / "src").rglob("*.rt"):
            try_functions(file)

    (copy / "crates/plain/src").mkdir(parents=True)
    (copy / "crates/plain/src/lib.rt").write_text(function("d"), encoding="utf-8")
    with (copy / "crates.txt").open("a", encoding="utf-8") as listed:
        listed.write("plain:\n")
    for words, why in (
        (("plain",), "no quotient at all"),
        (("sprite",), "sprite is not in crates.txt"),
        ((), "divisions.py sources ROOT CRATE"),
    ):
        ended, said = said_of("sources", copy, *words)
        check(ended == 1 and why in said, f"the sources of {' '.join(words)}", said)
    shutil.rmtree(copy / "crates/chip/src")
    ended, said = said_of("sources", copy, LIBRARY)
    check(ended == 1 and "chip has no source" in said, "a crate without sources", said)


def compiled(folder, name, code):
    (folder / f"{name}.c").write_text(code, encoding="utf-8")
    subprocess.run(["gcc", "-O2", "-c", folder / f"{name}.c", "-o", folder / f"{name}.o"], check=True)
    return folder / f"{name}.o"


def try_objects(folder):
    for name, code, found in OBJECTS:
        file = compiled(folder, name, code)
        ended, said = said_of("object", file, "f")
        if found:
            check(ended == 1 and said.startswith(f"{file}: f: {found}"), f"{code!r} is found", said)
        else:
            check(ended == 0, f"{code!r} is left", said)

    archive = folder / "both.a"
    subprocess.run(["ar", "rcs", archive, folder / "eight.o", folder / "quotient.o"], check=True)
    ended, said = said_of("object", archive, "f")
    check(ended == 1 and said.startswith(f"{archive}: f: div"), "the second object of an archive", said)

    for words, why in (
        ((compiled(folder, "nothing", "int a;"),), "no machine code"),
        ((folder / "eight.o", "vdp_point"), "no vdp_point"),
        ((folder / "none.o",), "No such file"),
        ((folder / "eight.c",), "format not recognized"),
    ):
        ended, said = said_of("object", *words)
        check(ended == 1 and why in said, f"the object {words[0].name}", said)


def main():
    try_expressions()
    with tempfile.TemporaryDirectory() as made:
        copy, folder = pathlib.Path(made, "sources"), pathlib.Path(made, "objects")
        copy.mkdir()
        folder.mkdir()
        try_sources(copy)
        try_objects(folder)
    print(f"planted_divisions: {passed} passed, {failed} failed")
    sys.exit(1 if failed else 0)


if __name__ == "__main__":
    main()
