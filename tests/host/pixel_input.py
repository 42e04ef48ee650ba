#!/usr/bin/env python3
"""Writes the snapshot that pixel is run on, crates/pixel/stdin, to standard output.

Graphics II. The point at line 150, column 173 is light red, colour 9, and no other is: a wrong line or column shows. So does a
wrong name, pattern or colour address, because no other byte of the colour table has a 9.

Line 150 is in the third part of the screen. Its cell 18 * 32 + 21 has a name that no other cell of this part has; row 6 of
the pattern has one bit set, the sixth from the left. Registers 3 and 4 have lower bits that do not count. So the point's name
stands at 6741, its pattern at 12550 and its colours at 4358.

Six sprites of 16 by 16, magnified, cover the line. Of the four that are drawn none shows at the point: number 0 is
transparent, number 2 stands left of it by early clock, numbers 3 and 5 have a hole there, in the left half and in the right.
Numbers 6 and 8 would show there, but they are the fifth and the sixth. Number 4 begins on the next line.
"""
import sys

COLOURS, NAMES, ATTRIBUTES, PATTERNS, SHAPES = 0x0000, 0x1800, 0x1B00, 0x2000, 0x3800
REGISTERS = [0x02, 0xC3, 0x06, 0x2A, 0x05, 0x36, 0x07, 0x17]
STATUS = 0x0A
LINE, COLUMN = 150, 173

vram = bytearray(16384)


def put(at, data):
    vram[at:at + len(data)] = bytes(data)


# Each name once in each part of the screen, never where its place would be.
for cell in range(768):
    vram[NAMES + cell] = (37 * cell + 101 * (cell // 256) + 13) % 256
# All colours but 9; and no pattern with the bit that the point has.
OTHERS = [0, 1, 2, 3, 4, 5, 6, 7, 8, 10, 11, 12, 13, 14, 15]
for q in range(6144):
    vram[COLOURS + q] = OTHERS[(q * 7 + q // 64) % 15] * 16 + OTHERS[(q * 4 + q // 128 + 3) % 15]
    vram[PATTERNS + q] = (q * 29 + q // 256 * 17 + 1) % 256 & 0xFB
name = vram[NAMES + LINE // 8 * 32 + COLUMN // 8]
q = LINE // 64 * 2048 + 8 * name + LINE % 8
put(COLOURS + q, [0x94])
put(PATTERNS + q, [0x80 >> COLUMN % 8])


def shape(number, hole=None):
    """A full square; without the pixel at this row and column of the 16 by 16."""
    lines = [0xFFFF] * 16
    if hole:
        lines[hole[0]] ^= 0x8000 >> hole[1]
    put(SHAPES + 8 * number, [line >> 8 for line in lines] + [line & 255 for line in lines])


# A magnified sprite shows row (line - Y - 1) / 2, and at the point column (173 - X) / 2.
shape(0)
shape(12)
shape(4, hole=((150 - 130 - 1) // 2, (173 - 160) // 2))
shape(8, hole=((150 - 124 - 1) // 2, (173 - 146) // 2))
sprites = [[210, 0, 0, 1] for _ in range(10)]
sprites[0] = [140, 150, 0, 0]
sprites[1] = [20, 150, 0, 8]
sprites[2] = [141, 170, 0, 0x80 | 5]
sprites[3] = [130, 160, 4, 2]
sprites[4] = [150, 160, 0, 3]
sprites[5] = [124, 146, 11, 12]
sprites[6] = [148, 155, 0, 15]
sprites[8] = [149, 172, 0, 6]
put(ATTRIBUTES, [byte for sprite in sprites for byte in sprite] + [208])

body = bytes(vram) + bytes(REGISTERS) + bytes([0, 0, 0, 0, 0, STATUS]) + bytes([0x56, 0x31, 0x0E, 0x00, 0x0E, 0x40])
total = sum(body) % 65536
sys.stdout.buffer.write(body + bytes([total & 255, total >> 8]))
