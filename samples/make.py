#!/usr/bin/env python3
"""Makes the sample snapshots, one picture in each mode of the chip, and the sample logs."""
import math
import os
import sys

sys.dont_write_bytecode = True
import chip

HERE = os.path.dirname(os.path.abspath(__file__))

# A 5 by 7 face for the text: each row is five bits, leftmost first.
FACE = {
    "A": "0E 11 11 1F 11 11 11", "B": "1E 11 11 1E 11 11 1E", "C": "0E 11 10 10 10 11 0E",
    "D": "1E 11 11 11 11 11 1E", "E": "1F 10 10 1E 10 10 1F", "F": "1F 10 10 1E 10 10 10",
    "G": "0E 11 10 17 11 11 0E", "H": "11 11 11 1F 11 11 11", "I": "0E 04 04 04 04 04 0E",
    "J": "01 01 01 01 01 11 0E", "K": "11 12 14 18 14 12 11", "L": "10 10 10 10 10 10 1F",
    "M": "11 1B 15 15 11 11 11", "N": "11 19 15 13 11 11 11", "O": "0E 11 11 11 11 11 0E",
    "P": "1E 11 11 1E 10 10 10", "Q": "0E 11 11 11 15 12 0D", "R": "1E 11 11 1E 14 12 11",
    "S": "0E 11 10 0E 01 11 0E", "T": "1F 04 04 04 04 04 04", "U": "11 11 11 11 11 11 0E",
    "V": "11 11 11 11 11 0A 04", "W": "11 11 11 15 15 1B 11", "X": "11 11 0A 04 0A 11 11",
    "Y": "11 11 0A 04 04 04 04", "Z": "1F 01 02 04 08 10 1F", "0": "0E 11 13 15 19 11 0E",
    "1": "04 0C 04 04 04 04 0E", "2": "0E 11 01 06 08 10 1F", "3": "0E 11 01 06 01 11 0E",
    "4": "02 06 0A 12 1F 02 02", "5": "1F 10 1E 01 01 11 0E", "6": "06 08 10 1E 11 11 0E",
    "7": "1F 01 02 04 08 08 08", "8": "0E 11 11 0E 11 11 0E", "9": "0E 11 11 0F 01 02 0C",
    ".": "00 00 00 00 00 0C 0C", ",": "00 00 00 00 0C 04 08", "-": "00 00 00 1F 00 00 00",
    ":": "00 0C 0C 00 0C 0C 00", "'": "04 04 08 00 00 00 00", "!": "04 04 04 04 04 00 04",
    "*": "00 15 0E 1F 0E 15 00", "=": "00 00 1F 00 1F 00 00", "/": "01 01 02 04 08 10 10",
    " ": "00 00 00 00 00 00 00", "+": "00 04 04 1F 04 04 00", "?": "0E 11 01 02 04 00 04",
}


def store(name, data):
    with open(os.path.join(HERE, name), "wb") as file:
        file.write(data)


def rows(text):
    """Bytes of a drawing: `#` is a set bit."""
    return [int(line.replace("#", "1").replace(".", "0"), 2) for line in text.split()]


def large(text):
    """The 32 bytes of a 16 by 16 drawing: the left half, then the right."""
    lines = [int(line.replace("#", "1").replace(".", "0"), 2) for line in text.split()]
    assert len(lines) == 16
    return [line >> 8 for line in lines] + [line & 255 for line in lines]


class Machine:
    """Registers and VRAM, with the tables at their usual places."""

    def __init__(self, registers, status=0):
        self.registers = registers
        self.status = status
        self.vram = bytearray(16384)
        self.sprites = 0

    def put(self, at, data):
        self.vram[at:at + len(data)] = bytes(data)

    def sprite(self, y, x, name, colour):
        """The next sprite; its first line is y + 1."""
        self.put(self.registers[5] * 128 + 4 * self.sprites, [y & 255, x & 255, name, colour])
        self.sprites += 1

    def shape(self, name, data):
        self.put(self.registers[6] * 2048 + 8 * name, data)

    def save(self, name):
        if self.sprites < 32:
            self.put(self.registers[5] * 128 + 4 * self.sprites, [208])
        store(name + ".snap", chip.snapshot(self.vram, self.registers + [0, 0, 0, 0, 0, self.status]))


def face(machine, base):
    """The face at pattern names of ASCII, in the left six columns."""
    for letter, text in FACE.items():
        bits = [int(word, 16) << 3 for word in text.split()] + [0]
        machine.put(base + 8 * ord(letter), bits)


def text_screen():
    """Text: a title, a box and what the chip is. White on dark blue."""
    machine = Machine([0x00, 0x50, 0x00, 0x00, 0x01, 0x20, 0x00, 0xF4])
    face(machine, 0x0800)
    box = {
        1: "000000 000000 000000 001111 001000 001000 001000 001000",
        2: "000000 000000 000000 111100 000100 000100 000100 000100",
        3: "001000 001000 001000 001111 000000 000000 000000 000000",
        4: "000100 000100 000100 111100 000000 000000 000000 000000",
        5: "000000 000000 000000 111111 000000 000000 000000 000000",
        6: "001000 001000 001000 001000 001000 001000 001000 001000",
        7: "000100 000100 000100 000100 000100 000100 000100 000100",
        8: "010100 101000 010100 101000 010100 101000 010100 101000",
    }
    for name, lines in box.items():
        machine.put(0x0800 + 8 * name, [int(line, 2) << 2 for line in lines.split()])
    screen = [[32] * 40 for _ in range(24)]

    def write(row, column, text):
        for offset, letter in enumerate(text):
            screen[row][column + offset] = ord(letter)

    screen[0] = [8] * 40
    screen[23] = [8] * 40
    for row in range(1, 23):
        screen[row][0] = screen[row][39] = 8
    for row, left, right, middle in ((3, 1, 2, 5), (7, 3, 4, 5)):
        screen[row][6] = left
        screen[row][33] = right
        for column in range(7, 33):
            screen[row][column] = middle
    for row in range(4, 7):
        screen[row][6] = 6
        screen[row][33] = 7
    write(5, 12, "B I R D C L E F T")
    write(9, 5, "A BENCH FOR VIDEO DRIVERS.")
    write(11, 5, "CHIP:      TMS9918A")
    write(12, 5, "MODE:      TEXT, 40 BY 24")
    write(13, 5, "VRAM:      16384 BYTES")
    write(14, 5, "REGISTERS: 8")
    write(15, 5, "COLOURS:   15 + TRANSPARENT")
    write(17, 5, "THE QUICK BROWN FOX JUMPS OVER")
    write(18, 5, "THE LAZY DOG. 0123456789")
    write(20, 5, "READY.")
    machine.put(0, [name for row in screen for name in row])
    machine.save("text")


def night():
    """Graphics I: a town at night under a moon, with large magnified sprites and stars at the top edge."""
    machine = Machine([0x00, 0x43, 0x02, 0x10, 0x00, 0x07, 0x03, 0x04], 0x80)
    names, colours = 0x0800, 0x0400
    # 8 patterns share a colour byte: 0 sky, 8 stars, 16 dark windows, 24 lit windows, 32 ground, 40 water, 48 roofs
    machine.put(0x0000 + 8 * 8, rows("........ ........ ...#.... ........ ........ ........ .....#.. ........"))
    machine.put(0x0000 + 8 * 9, rows("........ .#...... ........ ........ ......#. ........ ..#..... ........"))
    machine.put(0x0000 + 8 * 16, rows("........ .######. .#..#.#. .#..#.#. .######. .#..#.#. .#..#.#. ........"))
    machine.put(0x0000 + 8 * 24, rows("######## #......# #.##.#.# #.##.#.# #......# #.##.#.# #.##.#.# ########"))
    machine.put(0x0000 + 8 * 32, rows("######## ######## ######## ######## ######## ######## ######## ########"))
    machine.put(0x0000 + 8 * 33, rows("........ ..#..#.. .##.##.# ######## ######## ######## ######## ########"))
    machine.put(0x0000 + 8 * 40, rows("######## ######## ###..### ######## ######## #..##### ######## ########"))
    machine.put(0x0000 + 8 * 41, rows("######## ##..#### ######## ######## #####..# ######## ######## ########"))
    machine.put(0x0000 + 8 * 48, rows("........ ...##... ..####.. ..####.. .######. .######. ######## ########"))
    for group, colour in enumerate((0x11, 0xF1, 0x41, 0x1B, 0xC1, 0x47, 0x61)):
        machine.put(colours + group, [colour])
    screen = [[0] * 32 for _ in range(24)]
    for row in range(14):
        for column in range(32):
            spot = (row * 7 + column * 11 + row * column) % 23
            if spot == 0:
                screen[row][column] = 8
            elif spot == 9:
                screen[row][column] = 9
    # a house by the lines of windows in each column
    heights = [4, 4, 7, 7, 3, 5, 5, 9, 9, 9, 4, 6, 6, 2, 8, 8, 3, 3, 6, 6, 6, 5, 5, 10, 10, 4, 7, 7, 7, 3, 5, 5]
    for column, height in enumerate(heights):
        top = 18 - height
        for row in range(top, 18):
            screen[row][column] = 24 if (row * 5 + column * 3) % 4 else 16
        screen[top - 1][column] = 48 if height > 6 else screen[top - 1][column]
    for column in range(32):
        screen[18][column] = 33
        screen[19][column] = 32
        for row in range(20, 24):
            screen[row][column] = 40 + (row + column) % 2
    machine.put(names, [name for row in screen for name in row])
    moon = large("""
        .....######.....
        ...#########....
        ..#######.......
        .######.........
        .#####..........
        ######..........
        #####...........
        #####...........
        #####...........
        #####...........
        ######..........
        .#####........#.
        .#######....###.
        ..#############.
        ...##########...
        .....######.....""")
    bird = large("""
        ................
        ................
        ##..........##..
        .###......###...
        ..####..####....
        ...########.....
        ....######......
        .....####.......
        ......##........
        ................
        ................
        ................
        ................
        ................
        ................
        ................""")
    boat = large("""
        .......#........
        .......##.......
        .......###......
        .......####.....
        .......#####....
        .......######...
        .......#######..
        .......#........
        .......#........
        ################
        .##############.
        ..############..
        ...##########...
        ................
        ................
        ................""")
    star = large("""
        .......#........
        .......#........
        ......###.......
        ......###.......
        .....#####......
        ################
        .##############.
        ..############..
        ....########....
        ....########....
        ...####..####...
        ...###....###...
        ..##........##..
        ..#..........#..
        ................
        ................""")
    for name, data in ((0, moon), (4, bird), (8, boat), (12, star)):
        machine.shape(name, data)
    machine.sprite(20, 196, 0, 11)        # the moon, magnified
    machine.sprite(240, 120, 12, 15)      # a star that comes in over the top edge
    machine.sprite(44, 40, 4, 14)         # birds
    machine.sprite(60, 74, 4, 14)
    machine.sprite(154, 90, 8, 8)         # a boat
    machine.sprite(158, 14, 8, 13 + 0x80)  # another, early clock: half past the left edge
    machine.sprite(150, 200, 8, 10)
    machine.save("graphics1")


def bitmap():
    """Graphics II: a sunset over hills and water, drawn pixel by pixel, with a kite of sprites."""
    machine = Machine([0x02, 0x42, 0x0E, 0xFF, 0x03, 0x76, 0x03, 0x01])
    names, patterns, colours = 0x3800, 0x0000, 0x2000
    machine.put(names, [i % 256 for i in range(768)])
    bands = [4, 4, 5, 5, 13, 13, 9, 9, 11, 11, 10]

    def pixel(x, y):
        sun = (x - 128) ** 2 + (y - 96) ** 2
        hill = 118 - 16 * math.sin(x / 27.0) - 7 * math.sin(x / 9.0 + 1)
        near = 140 + 9 * math.sin(x / 31.0 + 2)
        if y >= 150:
            glow = abs(x - 128) < 34 + (y - 150) / 2 and (y * 7 + x // 9) % 3 != 0
            return 10 if glow and y % 4 < 2 else (5 if (y + x // 16) % 5 == 0 else 4)
        if y >= near:
            return 12 if (x * 3 + y * 5) % 11 else 2
        if y >= hill:
            return 6 if (x + y) % 7 else 8
        if sun < 40 ** 2:
            return 11 if sun < 34 ** 2 else 10
        at = y / 118.0 * (len(bands) - 1)
        low = int(at)
        dither = ((x * 5 + y * 3) % 8) / 8.0
        return bands[min(low + (1 if at - low > dither else 0), len(bands) - 1)]

    for y in range(192):
        for cell in range(32):
            line = [pixel(cell * 8 + x, y) for x in range(8)]
            ranked = sorted(set(line), key=lambda c: (-line.count(c), c))
            back = ranked[0]
            front = ranked[1] if len(ranked) > 1 else back
            bits = 0
            for colour in line:
                bits = bits * 2 + (1 if colour == front and front != back else 0)
            at = (y // 64) * 2048 + ((y // 8 % 8) * 32 + cell) * 8 + y % 8
            machine.put(patterns + at, [bits])
            machine.put(colours + at, [front * 16 + back])
    gull = large("""
        ................
        ................
        .####......####.
        ##..###..###..##
        #.....####.....#
        .......##.......
        ................
        ................
        ................
        ................
        ................
        ................
        ................
        ................
        ................
        ................""")
    kite = large("""
        .......##.......
        ......####......
        .....##.###.....
        ....###.####....
        ...####.#####...
        ..#####.######..
        .######.#######.
        ................
        .######.#######.
        ..#####.######..
        ...####.#####...
        ....###.####....
        .....##.###.....
        ......####......
        .......##.......
        .......##.......""")
    tail = large("""
        .......#........
        ......#.........
        .....###........
        ......#.........
        .......#........
        ........#.......
        .......###......
        ........#.......
        .......#........
        ......#.........
        .....###........
        ......#.........
        .......#........
        ........#.......
        .........#......
        ........#.......""")
    for name, data in ((0, gull), (4, kite), (8, tail)):
        machine.shape(name, data)
    machine.sprite(22, 196, 4, 8)          # the kite
    machine.sprite(38, 196, 8, 15)         # its tail
    machine.sprite(54, 193, 8, 15)
    machine.sprite(30, 60, 0, 1)           # gulls
    machine.sprite(48, 92, 0, 1)
    machine.sprite(18, 104, 0, 15)
    machine.sprite(56, 20, 0, 1 + 0x80)    # early clock: it comes in from the left
    machine.sprite(251, 30, 0, 15)         # over the top edge
    machine.save("graphics2")


def blocks():
    """Multicolor: a 64 by 48 picture of a parrot, with small magnified sprites: butterflies, and seeds below."""
    machine = Machine([0x00, 0x49, 0x02, 0x00, 0x00, 0x20, 0x03, 0x05])
    names = 0x0800
    for row in range(24):
        machine.put(names + 32 * row, [32 * (row // 4) + column for column in range(32)])

    def inside(x, y, cx, cy, rx, ry):
        return ((x - cx) / rx) ** 2 + ((y - cy) / ry) ** 2 <= 1

    def block(x, y):
        if inside(x, y, 36.6, 12.6, 1.6, 1.6):
            return 1 if inside(x, y, 36.8, 12.6, 0.9, 0.9) else 15
        if inside(x, y, 38, 12, 4.2, 4) and x > 34:
            return 15
        if inside(x, y, 43.5, 13.5, 3.2, 3.6) and not inside(x, y, 42.4, 18, 2.6, 3.2):
            return 14 if y < 13 else 1
        if inside(x, y, 34, 12, 8, 7):
            return 8
        if inside(x, y, 24.5, 26, 5.2, 11):
            return 10 if y < 22 else (2 if y < 27 else 4)
        if inside(x, y, 30, 25, 9, 13):
            return 8 if x > 27 else 6
        if 14 <= x <= 26 and 32 <= y <= 47 and abs((x - 25) * 1.2 + (y - 33)) < 6:
            return 6 if (x + y) % 3 else 4
        if 38 <= y <= 39:
            return 10 if (x * 3) % 7 else 11
        if y > 39 and inside(x, y, 32, 39, 7, 2):
            return 11
        leaf = (x * 5 + y * 3 + (x * y) // 7) % 13
        if y < 9 and abs(math.sin(x / 4.0) * 5) + 2 > y:
            return 12 if leaf % 3 else 2
        if x < 7 and abs(math.sin(y / 3.0) * 4) + 1 > x:
            return 3 if leaf % 4 else 12
        if x > 57 and abs(math.sin(y / 3.5 + 1) * 4) + 1 > 63 - x:
            return 3 if leaf % 4 else 12
        return 7 if y < 24 else 5

    for y in range(48):
        for column in range(32):
            name = 32 * (y // 8) + column
            machine.put(8 * name + y % 8, [block(2 * column, y) * 16 + block(2 * column + 1, y)])
    seed = rows("...##... ..####.. .######. .######. .######. ..####.. ...##... ........")
    butterfly = rows("##....## ###..### ######## .##..##. .######. ###..### ##....## ........")
    machine.shape(0, seed)
    machine.shape(1, butterfly)
    machine.sprite(120, 204, 1, 11)
    machine.sprite(70, 216, 1, 13)
    machine.sprite(96, 12, 1, 15 + 0x80)   # early clock: half past the left edge
    machine.sprite(248, 150, 1, 9)         # over the top edge
    for y, x, colour in ((165, 174, 11), (168, 190, 10), (164, 200, 11), (166, 216, 10), (168, 232, 11)):
        machine.sprite(y, x, 0, colour)    # two seeds meet, and the fifth on a line is not drawn there
    machine.save("multicolor")


def driver(name, interrupted):
    """A driver that prints two lines on the text screen and reads both back, while two frames are drawn.

    The first frame ends between the two control bytes that set the second line's address. A driver that holds interrupts off
    until the pair is complete prints what it should. Where the interrupt routine reads status at once, the first control
    byte is dropped, and the second one waits until the first data write drops it too. So the address stays behind the first
    line, the second line goes there, and reading back finds the space that is still in its place.
    """
    def pair(first, second):
        return [(chip.CONTROL_WRITE, first), (chip.CONTROL_WRITE, second)]

    def lines(first, last):
        return [(chip.DRAW_LINE, line) for line in range(first, last + 1)]

    def written(text):
        return [(chip.DATA_WRITE, ord(letter)) for letter in text]

    def read_back(place, text):
        return pair(place & 255, place >> 8) + [(chip.DATA_READ, ord(letter)) for letter in text]

    one, two = 40 * 21 + 5, 40 * 22 + 5
    low, high = pair(two & 255, 0x40 | two >> 8)
    status = (chip.STATUS_READ, 0x80)
    calls = [(chip.RESET, 0), (chip.STATUS_READ, 0x00)] + pair(0x00, 0x80) + pair(0x70, 0x81)
    calls += lines(0, 99) + pair(one & 255, 0x40 | one >> 8) + written("10 READ STATUS") + read_back(one, "10 READ STATUS")
    calls += lines(100, 191) + [low, (chip.END_OF_DISPLAY, 0)] + ([status, high] if interrupted else [high, status])
    calls += written("20 GOTO 10") + read_back(two, "20 GOTO 10")
    calls += lines(0, 191) + [(chip.END_OF_DISPLAY, 0), status]
    store(name + ".log", chip.log(calls))


if __name__ == "__main__":
    text_screen()
    night()
    bitmap()
    blocks()
    driver("driver", False)
    driver("interrupted", True)
