#!/usr/bin/env python3
"""Runs target/bin/pixel and compares what it prints. The last line counts."""
import glob
import os
import random
import subprocess
import sys
import tempfile

sys.dont_write_bytecode = True
ROOT = os.path.join(os.path.dirname(os.path.abspath(__file__)), "..", "..")
from rules import mode, pixels
from snapshots import MASKS, refused_snapshots, snapshot

PROGRAM = os.path.join(ROOT, "target", "bin", "pixel")
# Table 2-3 of the data manual.
NAMES = ("transparent", "black", "medium green", "light green", "dark blue", "light blue", "dark red", "cyan", "medium red",
         "light red", "dark yellow", "light yellow", "dark green", "magenta", "gray", "white")
USAGE = "usage: pixel LINE COLUMN <SNAPSHOT\n"
# One argument has at most 131,072 bytes on Linux, the zero behind it among them.
LONGEST = 131071

passed = failed = 0


def check(holds, what):
    global passed, failed
    if holds:
        passed += 1
    else:
        failed += 1
        print("pixel: " + what)


def short(words):
    return " ".join(ascii(word if len(word) < 40 else word[:8] + "... %d long" % len(word)) for word in words)


def run(words, given, name="pixel"):
    """What the program prints, on both streams, with an open file or pipe as its standard input."""
    done = subprocess.run([name, *map(os.fsencode, words)], executable=PROGRAM, stdin=given, stdout=subprocess.PIPE,
                          stderr=subprocess.STDOUT)
    return done.stdout.decode("latin-1")


def shown(colour, words):
    return "%d %s\n%s\n" % (colour, NAMES[colour], words)


def file_of(data):
    file = tempfile.TemporaryFile(buffering=0)
    file.write(data)
    return file


def prints(what, words, given, wanted):
    """From the file's beginning. Where the usage is to be shown nothing of the file is read."""
    given.seek(0)
    got = run(words, given)
    check(got == wanted, "%s, %s: %s in place of %s" % (what, short(words), ascii(got[:160]), ascii(wanted)))
    if wanted == USAGE:
        # the place in the file is the program's too
        check(given.tell() == 0, "%s, %s: the file was read" % (what, short(words)))


def picture(text):
    """The colours of 192 lines, from the text that shows a snapshot."""
    lines = [None] * 192
    for printed in text.splitlines()[1:]:
        _, bounds, *runs = printed.split()
        first, last = map(int, bounds.split("-"))
        pairs = [tuple(map(int, one.split("*"))) for one in runs]
        for line in range(first, last + 1):
            lines[line] = [colour for count, colour in pairs for _ in range(count)]
    assert all(len(line) == 256 for line in lines)
    return lines


def chosen(lines, choose):
    """Points to try: the edges, each colour, both sides of borders between colours, and any."""
    points = {(line, column) for line in (0, 191) for column in (0, 255)}
    for column in (7, 8, 247, 248):
        points |= {(choose.randrange(192), column) for _ in range(8)}
    for colour in range(16):
        points |= set([(line, column) for line in range(192) for column in range(256) if lines[line][column] == colour][:1])
    for _ in range(60):
        line = choose.randrange(192)
        borders = [column for column in range(1, 256) if lines[line][column] != lines[line][column - 1]]
        if borders:
            column = choose.choice(borders)
            points |= {(line, column - 1), (line, column)}
    return points | {(choose.randrange(192), choose.randrange(256)) for _ in range(150)}


def whole(data):
    """Colour and words of every pixel, by line and column."""
    return [pixels(data, line) for line in range(192)]


def colours_of(found):
    return [[colour for colour, _ in line] for line in found]


def sample(name):
    """Every pixel of a sample. The rules and the stored text have to agree on its colours."""
    path = os.path.join(ROOT, "samples", name)
    with open(path + ".snap", "rb") as file:
        found = whole(file.read())
    with open(path + ".txt") as file:
        check(colours_of(found) == picture(file.read()), "the rules and the text of " + name)
    return found


def samples():
    """The samples; in one of them every line's number and every column's."""
    choose = random.Random(9918)
    paths = sorted(glob.glob(os.path.join(ROOT, "samples", "*.snap")))
    check(len(paths) == 4, "four samples")
    for path in paths:
        name = os.path.basename(path)[:-5]
        found = sample(name)
        points = chosen(colours_of(found), choose)
        if name == "graphics2":
            points |= {(line, choose.randrange(256)) for line in range(192)}
            points |= {(choose.randrange(192), column) for column in range(256)}
        with open(path, "rb", buffering=0) as given:
            for line, column in sorted(points):
                prints(name, (str(line), str(column)), given, shown(*found[line][column]))


def stored():
    """The stored input is the script's, its point has the stored lines, and no other point has that colour."""
    def kept(name):
        with open(os.path.join(ROOT, "crates", "pixel", name), "rb") as file:
            return file.read()

    made = subprocess.run([os.path.join(ROOT, "tests", "host", "pixel_input.py")], stdout=subprocess.PIPE, check=True).stdout
    check(made == kept("stdin"), "the stored input of pixel differs")
    words = kept("args").decode().split("\n")
    check(words == ["150", "173", ""], "the stored arguments")
    check(kept("stdout") == b"9 light red\npattern plane, name at 6741, pattern at 12550, colours at 4358\n", "the stored lines")
    with file_of(made) as given:
        prints("the stored input", words[:2], given, kept("stdout").decode())
        given.seek(0)
        text = subprocess.run([os.path.join(ROOT, "target", "bin", "show")], stdin=given, stdout=subprocess.PIPE, check=True).stdout
        lines, found = picture(text.decode()), whole(made)
        red = [(line, column) for line in range(192) for column in range(256) if lines[line][column] == 9]
        check(red == [(150, 173)], "the point that alone is light red")
        check(colours_of(found) == lines, "the rules and the text of the stored input")
        for line, column in ((149, 173), (151, 173), (150, 172), (150, 174), (173, 150), (0, 0), (191, 255)):
            prints("the stored input", (str(line), str(column)), given, shown(*found[line][column]))


def each_name():
    """The backdrop in every colour. With all planes 0 a point is black, and transparent where external video is on."""
    for colour in range(16):
        for external in (0, 1):
            words = "backdrop, register 7" if colour else "external video" if external else "black by default"
            with file_of(snapshot([(16384, external), (16391, 0xF0 + colour)])) as given:
                wanted = shown(colour or 1 - external, words)
                prints("backdrop %d, external video %d" % (colour, external), ("100", "200"), given, wanted)


# Registers 0 and 1: each mode, and lines without planes.
MODES = ((0x00, 0xC0), (0x02, 0xC0), (0x00, 0xC8), (0x00, 0xD0))
BLANK = ((0x00, 0x80), (0x02, 0x88), (0x00, 0xD8), (0x02, 0xD0), (0x02, 0xC8), (0x02, 0xD8))
# External video and backdrop.
BEHIND = ((0x00, 0x0E), (0x01, 0x0E), (0x00, 0x00), (0x01, 0x00))
# Registers 2 to 6: the tables at their lowest addresses, and at their highest.
ENDS = ((0x00,) * 5, MASKS[2:7])


def busy(choose, first, form, behind, tables):
    """A snapshot full of anything. Its sprites are on the screen or enter over the top edge, and one in four has colour 0."""
    r = [first[0] | behind[0], first[1] | form, *tables, choose.randrange(16) * 16 | behind[1]]
    vram = bytearray(choose.randbytes(16384))
    for number in range(32):
        at = 128 * r[5] + 4 * number
        vram[at] = choose.randrange(-31, 192) % 256
        vram[at + 3] &= choose.choice((0xFF, 0xFF, 0xFF, 0xF0))
    return snapshot([*enumerate(vram), *enumerate(r, 16384)])


def busy_snapshots(choose):
    for behind in BEHIND:
        for first in MODES:
            for form in range(4):
                yield busy(choose, first, form, behind, [choose.randrange(256) & mask for mask in MASKS[2:7]])
        for first in MODES + BLANK:
            for tables in ENDS:
                yield busy(choose, first, 3, behind, tables)


def origins():
    """Made snapshots in every mode: on some lines, a column of each origin that the line has and one at an edge."""
    choose, asked = random.Random(35), set()
    for data in busy_snapshots(choose):
        kind = mode(data[16384:16392])
        with file_of(data) as given:
            for line in (0, 191, *(choose.randrange(192) for _ in range(4))):
                found = pixels(data, line)
                columns = {found[column][1].split(",")[0]: column for column in choose.sample(range(256), 256)}
                asked |= {(kind, origin) for origin in columns}
                for column in {*columns.values(), choose.choice((0, 7, 8, 247, 248, 255))}:
                    prints("%s, registers %s" % (kind, data[16384:16392].hex()), (str(line), str(column)), given,
                           shown(*found[column]))
    wanted = {(kind, origin) for kind in ("Graphics I", "Graphics II", "Multicolor", "Text", "blank")
              for origin in ("pattern plane", "backdrop", "black by default", "external video")}
    check(wanted - asked == {("blank", "pattern plane")}, "not asked for: %s" % sorted(wanted - asked))
    unasked = {"sprite %d" % number for number in range(32)} - {origin for _, origin in asked}
    check(not unasked, "not asked for: %s" % sorted(unasked))


def large_numbers(limit, choose):
    """Numbers above a limit, among them those that a type of 8 to 128 bits would take for a small one."""
    for bits in (8, 16, 31, 32, 63, 64, 65, 127, 128, 256):
        for more in (-1, 0, 1, limit, limit + 1, 256):
            if 2 ** bits + more > limit:
                yield str(2 ** bits + more)
    for digits in (3, 4, 8, 9, 10, 19, 20, 32, 64, 128, 999):
        # from 64 zeros on the number is a multiple of two to the 64th
        yield "1" + "0" * digits
        yield "1" + "0" * digits + "7"
        yield "9" * (digits + 1)
    for _ in range(40):
        yield str(choose.randrange(limit + 1, 10 ** choose.randrange(4, 60)))
    yield "0" * 500 + str(limit + 1)
    yield "0" * 500 + "4294967296"
    yield "9" * LONGEST
    yield "1" + "0" * (LONGEST - 1)
    yield "0" * (LONGEST - 3) + str(limit + 1)
    yield str(limit + 1)


def numbers():
    """4 for the line, and then 13 for the column; leading zeros count for nothing."""
    choose = random.Random(3)
    found = sample("graphics1")
    with open(os.path.join(ROOT, "samples", "graphics1.snap"), "rb", buffering=0) as given:
        for line in large_numbers(191, choose):
            for column in ("0", "255"):
                prints("a large line", (line, column), given, "refused 4\n")
        for column in large_numbers(255, choose):
            for line in ("0", "191"):
                prints("a large column", (line, column), given, "refused 13\n")
        large = ("192", "256", "4294967296", "18446744073709551616", "9" * 1000)
        for line in large:
            for column in large[1:]:
                prints("both too large", (line, column), given, "refused 4\n")
        prints("both too large", ("9" * LONGEST, "9" * LONGEST), given, "refused 4\n")
        for zeros in (1, 2, 3, 10, 20, 300, 1000, LONGEST - 3):
            for line, column in ((0, 0), (191, 255), (20, 200), (100, 7)):
                longer = "0" * zeros + str(line), "0" * zeros + str(column)
                for words in (longer, (longer[0], str(column)), (str(line), longer[1])):
                    prints("leading zeros", words, given, shown(*found[line][column]))


def refused_files():
    """The file's refusals come before those of the numbers, and the usage before all."""
    for name, number, data in refused_snapshots():
        with file_of(data) as given:
            for words in (("0", "0"), ("191", "255"), ("192", "0"), ("0", "256"), ("192", "256"), ("9" * 1000, "9" * 1000)):
                prints(name, words, given, "refused %d\n" % number)
            for words in ((), ("0",), ("0", "0", "0"), ("192", ""), ("-1", "256")):
                prints(name, words, given, USAGE)


WRONG = ["", " ", "+1", "-1", "+0", "-0", "--1", "-", "+", " 1", "1 ", "1 2", "\t1", "1\t", "1\n", "\n1", "1\n2", "\n", "1\r",
         "1\v", "1a", "a1", "a", "x", "X", "0x10", "0b1", "0o7", "10h", "1e1", "1.0", ".1", "1.", "1,0", "1_0", "1'0", "1/2",
         "1:2", "/", ":", "/1", "1:", "#1", "$1", "1;", "one", "-h", "--help", "--", "'1'", '"1"', "(1)", "1\x01", "\x01", "\x7f",
         # digits of other scripts, and bytes that are no character: with the high bit, and alone
         "\u0661", "\uff11", "\u00b2", "1\u0661", "\udcb1", "1\udcb1", "\udcff", "1\udc80",
         "9" * 1000 + "x", "x" + "9" * 1000, "-" + "9" * 1000, "0" * (LONGEST - 1) + "x", "9" * (LONGEST - 1) + "-",
         "x" * LONGEST]


def usage():
    """Words that are not two numbers, with a good file that stays unread."""
    with open(os.path.join(ROOT, "samples", "text.snap"), "rb", buffering=0) as given:
        for words in ((), ("0",), ("191",), ("192",), ("",), ("x",), ("0 0",), ("0,0",), ("0", "0", "0"), ("0", "0", ""),
                      ("0", "0", "x"), ("192", "256", "0"), ("", "", ""), ("0",) * 4, ("0",) * 258, ("0",) * 1000,
                      ("9" * LONGEST,), ("0", "0", "9" * LONGEST)):
            prints("a number of words", words, given, USAGE)
        for word in WRONG:
            for words in ((word, "0"), ("0", word), (word, word), (word, "256"), ("192", word)):
                prints("a wrong word", words, given, USAGE)


def through_pipe(words, data, name="pixel"):
    """What is printed, and what is left in a pipe that had all of the data before the program began."""
    read, write = os.pipe()
    with open(read, "rb", buffering=0) as given:
        with open(write, "wb", buffering=0) as sender:
            sender.write(data)
        printed = run(words, given, name)
        return printed, given.read()


def pipes():
    """Standard input as a pipe, and an input that comes in parts. The program's own name is no matter."""
    with open(os.path.join(ROOT, "samples", "text.snap"), "rb") as file:
        data = file.read()
    # line 0: the text begins "lines 0-0 9*4 1*15"; patterns stand at 2048, and the first cell has name 8
    cell = "pattern plane, name at 0, pattern at 2112, colours in register 7"
    white = shown(15, cell)
    check(through_pipe(("0", "9"), data) == (white, b""), "a pipe")
    check(through_pipe(("0", "8"), data) == (shown(4, cell), b""), "a pipe, one column before")
    check(through_pipe(("0", "7"), data) == (shown(4, "backdrop, register 7"), b""), "a pipe, in the margin")
    check(through_pipe(("0", "9"), b"") == ("refused 5\n", b""), "an empty pipe")
    check(through_pipe(("0", "9"), data + b"\0")[0] == "refused 5\n", "a pipe with a byte more")
    for words in ((), ("0",), ("0", "0", "0"), ("0", "x"), ("", "9")):
        check(through_pipe(words, data) == (USAGE, data), "usage leaves the pipe: " + short(words))
    for name in ("", "other", "0"):
        check(through_pipe(("0", "9"), data, name) == (white, b""), "called as " + ascii(name))
        check(through_pipe((), data, name) == (USAGE, data), "called without words as " + ascii(name))
    for size in (1000, 4096, 16405):
        parts = subprocess.Popen([PROGRAM, "0", "9"], stdin=subprocess.PIPE, stdout=subprocess.PIPE, bufsize=0)
        for at in range(0, len(data), size):
            parts.stdin.write(data[at:at + size])
        check(parts.communicate()[0].decode() == white, "an input in parts of %d" % size)


def main():
    samples()
    stored()
    each_name()
    origins()
    numbers()
    refused_files()
    usage()
    pipes()
    print("pixel: %d passed, %d failed" % (passed, failed))
    return failed != 0


sys.exit(main())
