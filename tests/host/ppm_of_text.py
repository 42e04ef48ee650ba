#!/usr/bin/env python3
"""Reads the text that shows a snapshot, and writes the picture of the same snapshot, a binary PPM.

The colours are computed from Table 2-3 of the data manual: Y, R-Y and B-Y, of which 0.47 stands for no colour. Colour 0,
transparent, is black. Text that tells a refusal is written as it is.
"""
import sys

TABLE = """0.00 0.47 0.47, 0.00 0.47 0.47, 0.53 0.07 0.20, 0.67 0.17 0.27, 0.40 0.40 1.00, 0.53 0.43 0.93, 0.47 0.83 0.30,
0.73 0.00 0.70, 0.53 0.93 0.27, 0.67 0.93 0.27, 0.73 0.57 0.07, 0.80 0.57 0.17, 0.47 0.13 0.23, 0.53 0.73 0.67,
0.80 0.47 0.47, 1.00 0.47 0.47"""


def level(part):
    return min(255, max(0, round(part * 255)))


def pixel(entry):
    y, red, blue = (float(number) for number in entry.split())
    red, blue = y + red - 0.47, y + blue - 0.47
    green = (y - 0.30 * red - 0.11 * blue) / 0.59
    return bytes([level(red), level(green), level(blue)])


palette = [pixel(entry) for entry in TABLE.split(",")]
text = sys.stdin.read()
if text.startswith("refused"):
    sys.stdout.write(text)
    sys.exit()
lines = [b""] * 192
for shown in text.splitlines()[1:]:
    word, bounds, *runs = shown.split()
    first, last = (int(number) for number in bounds.split("-"))
    pixels = b"".join(int(count) * palette[int(colour)] for count, colour in (run.split("*") for run in runs))
    for line in range(first, last + 1):
        lines[line] = pixels
sys.stdout.buffer.write(b"P6\n256 192\n255\n" + b"".join(lines))
