#!/usr/bin/env python3
"""Writes the snapshot that show is run on, crates/show/stdin, to standard output.

Neighbouring lines differ or are equal in many ways, and line 0 differs from line 1. Two sprites meet on lines 100 to 107,
and only line 191 has a fifth sprite: the status after is 6C, and 2A if line 191 is left out.
"""
import sys

NAMES, COLOURS, PATTERNS, ATTRIBUTES, SHAPES = 0x0800, 0x0C00, 0x0000, 0x1000, 0x1800
REGISTERS = [0x00, 0x40, 0x02, 0x30, 0x00, 0x20, 0x03, 0x17]
STATUS = 0x0A

vram = bytearray(16384)


def put(at, data):
    vram[at:at + len(data)] = bytes(data)


# Names 0 to 7 show the backdrop, 8 to 15 white on dark blue, 16 to 23 red on transparent.
put(COLOURS, [0x00, 0xF4, 0x60])
put(PATTERNS + 8 * 8, [0xFF, 0, 0, 0, 0, 0, 0, 0x0F])
put(PATTERNS + 8 * 9, [0x80, 0x40, 0x20, 0x10, 0x08, 0x04, 0x02, 0x01])
put(PATTERNS + 8 * 16, [0x01] * 8)
put(PATTERNS + 8 * 17, [0, 0, 0, 0, 0, 0, 0, 0xAA])
put(NAMES, [8] * 32)
put(NAMES + 32 * 3, [8])
put(NAMES + 32 * 4 + 31, [16])
put(NAMES + 32 * 5, [9, 8, 0] * 10)
put(NAMES + 32 * 22, [9])
put(NAMES + 32 * 23, [17] * 32)

# Sprites 0, 3, 5, 9 and 12 cover line 191 alone; 13 and 14 meet; the others are below the screen.
sprites = [[210, 0, 0, 1] for _ in range(15)]
for place, number in enumerate((0, 3, 5, 9, 12)):
    sprites[number] = [190, 40 * place + 8, 1, 2 + place]
sprites[13] = [99, 60, 1, 11]
sprites[14] = [99, 62, 1, 13]
put(ATTRIBUTES, [byte for sprite in sprites for byte in sprite] + [208])
put(SHAPES + 8, [0xFF] * 8)

body = bytes(vram) + bytes(REGISTERS) + bytes([0, 0, 0, 0, 0, STATUS]) + bytes([0x56, 0x31, 0x0E, 0x00, 0x0E, 0x40])
total = sum(body) % 65536
sys.stdout.buffer.write(body + bytes([total & 255, total >> 8]))
