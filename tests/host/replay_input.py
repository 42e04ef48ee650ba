#!/usr/bin/env python3
"""Writes what replay is run on, crates/replay/stdin, to standard output: a snapshot and a log.

Each operation leaves something in the snapshot after the run, which is crates/replay/stdout. A first byte waits at the
start, and the first record completes its pair. Line 20 has a fifth sprite, and on line 40 two sprites meet: status is 46
after the one and 26 after the other, with a status read between them. Data writes go over the end of VRAM. The last read
finds another byte than expected while a first byte waits; what stands behind it would change registers, VRAM and status.
"""
import os
import sys

sys.dont_write_bytecode = True
sys.path.insert(0, os.path.join(os.path.dirname(os.path.abspath(__file__)), "..", "..", "samples"))
import chip
from chip import CONTROL_WRITE, DATA_READ, DATA_WRITE, DRAW_LINE, END_OF_DISPLAY, RESET, STATUS_READ

ATTRIBUTES, SHAPES = 0x1000, 0x1800
REGISTERS = [0x02, 0xA0, 0x02, 0x30, 0x00, 0x20, 0x03, 0x17]

vram = bytearray((7 * i + i // 256) % 256 for i in range(16384))
sprites = [[19, 40 * number + 8, 0, 2 + number] for number in range(4)] + [[39, 50, 0, 9], [39, 54, 0, 8], [19, 200, 0, 7]]
attributes = bytes(byte for sprite in sprites for byte in sprite) + bytes([208])
vram[ATTRIBUTES:ATTRIBUTES + len(attributes)] = attributes
vram[SHAPES:SHAPES + 8] = bytes([0xFF] * 8)
start = chip.snapshot(vram, REGISTERS + [0x34, 0x12, 0x99, 1, 0x0B, 0x15])

calls = [(CONTROL_WRITE, 0x87), (END_OF_DISPLAY, 0), (STATUS_READ, None), (RESET, 0)]
for number, byte in ((1, 0xC0), (4, 0x01)):
    calls += [(CONTROL_WRITE, byte), (CONTROL_WRITE, 0x80 | number)]
calls += [(DRAW_LINE, 20), (STATUS_READ, None), (DRAW_LINE, 40)]
calls += [(CONTROL_WRITE, 0xFE), (CONTROL_WRITE, 0x7F)] + [(DATA_WRITE, byte) for byte in (0xA1, 0xA2, 0xA3, 0xA4)]
calls += [(CONTROL_WRITE, 0xFF), (CONTROL_WRITE, 0x3F), (DATA_READ, None), (DATA_READ, None), (END_OF_DISPLAY, 0), (CONTROL_WRITE, 0x77)]
calls = chip.with_right_reads(start, calls)
calls += [(DATA_READ, 0x00), (CONTROL_WRITE, 0x00), (CONTROL_WRITE, 0x87), (DATA_WRITE, 0x66), (STATUS_READ, 0x00), (RESET, 0)]
sys.stdout.buffer.write(start + chip.log(calls))
