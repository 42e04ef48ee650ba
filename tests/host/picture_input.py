#!/usr/bin/env python3
"""Writes the snapshot that picture is run on, crates/picture/stdin, to standard output.

Graphics II. The first eight columns of each line are the line's number in binary, so that no two lines are equal. Behind
them stand slanted bars in all 16 colours; transparent ones show the backdrop. The sprites are large: five on some lines,
two that meet, one with the early clock bit, one that comes in over the top, one in colour 0.
"""
import sys

PATTERNS, NAMES, ATTRIBUTES, COLOURS, SHAPES = 0x0000, 0x1800, 0x1B00, 0x2000, 0x3800
REGISTERS = [0x02, 0xC2, 0x06, 0xFF, 0x03, 0x36, 0x07, 0x05]
STATUS = 0x1F

vram = bytearray(16384)


def put(at, data):
    vram[at:at + len(data)] = bytes(data)


for third in range(3):
    put(NAMES + 256 * third, range(256))
for line in range(192):
    for column in range(32):
        at = 2048 * (line // 64) + 8 * (32 * (line // 8 % 8) + column) + line % 8
        if column == 0:
            vram[PATTERNS + at], vram[COLOURS + at] = line, 0xF1
        else:
            vram[PATTERNS + at] = 0xFF << (line + column) % 8 & 255
            vram[COLOURS + at] = (line // 16 + column) % 16 * 16 + (line // 8 + 7 * column) % 16

put(SHAPES, [0x0F, 0x3F, 0x70, 0xE0] + [0xC1] * 8 + [0xE0, 0x70, 0x3F, 0x0F] + [0xF0, 0xFC, 0x0E, 0x07] + [0x83] * 8 + [0x07, 0x0E, 0xFC, 0xF0])
put(SHAPES + 32, [1 << (15 - row) >> 8 | 0x80 for row in range(16)] + [1 << (15 - row) & 255 | 1 for row in range(16)])
sprites = [
    [246, 200, 0, 8],
    [20, 40, 0, 15], [26, 100, 4, 11], [28, 150, 0, 2], [30, 180, 4, 13], [32, 220, 0, 6],
    [90, 60, 0, 9], [96, 68, 4, 3],
    [120, 20, 0, 0x8C],
    [140, 90, 4, 0], [144, 96, 0, 14],
    [185, 250, 4, 10],
]
put(ATTRIBUTES, [byte for sprite in sprites for byte in sprite] + [208])

body = bytes(vram) + bytes(REGISTERS) + bytes([0, 0, 0, 0, 0, STATUS]) + bytes([0x56, 0x31, 0x0E, 0x00, 0x0E, 0x40])
total = sum(body) % 65536
sys.stdout.buffer.write(body + bytes([total & 255, total >> 8]))
