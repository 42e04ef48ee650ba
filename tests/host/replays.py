#!/usr/bin/env python3
"""Makes inputs for replay, each in a file NAME.in of the folder given, and what it has to write: NAME.out is standard
output, NAME.err standard error."""
import os
import random
import sys

sys.dont_write_bytecode = True
sys.path.insert(0, os.path.join(os.path.dirname(os.path.abspath(__file__)), "..", "..", "samples"))
import chip
from snapshots import refused_snapshots, snapshot

SIZE, MOST = 16406, 20000
POWER_UP = snapshot()


def damaged(data, at, more):
    """The bytes with one of them so much higher."""
    at %= len(data)
    return data[:at] + bytes([(data[at] + more) % 256]) + data[at + 1:]


def refused():
    """Names, refusal numbers and inputs."""
    good = chip.log([(0, 0xAA), (1, 0x42), (2, 0xAA), (3, 0x00), (4, 191), (5, 0), (6, 0)])
    bad_form, bad_record = damaged(good, -1, 1), chip.log([(7, 0)])
    for name, number, data in refused_snapshots():
        if len(data) != SIZE:
            continue
        # the snapshot's number comes before the log's
        yield "snapshot_" + name, number, data + good
        yield "snapshot_and_form_" + name, number, data + bad_form
        yield "snapshot_and_record_" + name, number, data + bad_record
        yield "snapshot_alone_" + name, number, data
        yield "snapshot_and_long_" + name, number, data + bytes(50000)
    for count in (0, 1, 4, 14, SIZE - 1):
        yield "first_%d" % count, 5, POWER_UP[:count]
    yield "short_and_sum", 5, snapshot([(0, 1)], summed=False)[:-1]

    for count in range(4):
        yield "log_of_%d" % count, 8, POWER_UP + bytes(count)
    yield "twice", 8, POWER_UP + POWER_UP
    for count in (1, 3, 41, 39999, 40001, 40002, 40003, 65536, 105536):
        # the trailer is right for them all
        yield "record_bytes_%d" % count, 8, POWER_UP + chip.log([bytes(count)])
    yield "much_longer", 8, POWER_UP + bytes(300000)
    most = chip.log([(0, 1)] * MOST)
    for more in (1, 2, 4, 60000):
        # a reader that stops at the longest log would find a good one
        yield "most_and_%d_more" % more, 8, POWER_UP + most + bytes(more)
    for at, name in ((-4, "distance_low"), (-3, "distance_high"), (-2, "sum_low"), (-1, "sum_high")):
        for more in (1, -1):
            yield "%s_%d" % (name, more), 8, POWER_UP + damaged(good, at, more)
            yield "%s_%d_of_none" % (name, more), 8, POWER_UP + damaged(chip.log([]), at, more)
    yield "byte_changed", 8, POWER_UP + damaged(good, 1, 1)
    yield "byte_lost", 8, POWER_UP + good[1:]
    yield "record_lost", 8, POWER_UP + good[2:]
    yield "byte_behind", 8, POWER_UP + good + bytes(1)
    yield "two_bytes_behind", 8, POWER_UP + good + bytes(2)
    yield "trailer_in_sum", 8, POWER_UP + damaged(good, -2, len(good) - 4)

    writes = [(0, byte) for byte in range(20)]
    for record in ((7, 0), (255, 0), (4, 192), (4, 255), (5, 1), (5, 255), (6, 1), (6, 255)):
        for place in (0, 10, 20):
            name = "record_%d_%d_at_%d" % (record + (place,))
            bad = chip.log(writes[:place] + [record] + writes[place:])
            yield name, 9, POWER_UP + bad
            yield name + "_and_sum", 8, POWER_UP + damaged(bad, -1, 1)
            yield name + "_and_distance", 8, POWER_UP + damaged(bad, -4, 1)
    yield "last_of_most", 9, POWER_UP + chip.log([(0, 1)] * (MOST - 1) + [(4, 192)])
    yield "one_too_many_and_record", 8, POWER_UP + chip.log([(0, 1)] * MOST + [(4, 192)])
    # all records are tested, also those behind a read that differs
    yield "record_behind_difference", 9, POWER_UP + chip.log([(2, 0x55), (0, 1), (6, 1)])


def random_start(choose):
    registers = [choose.randrange(256) & mask for mask in chip.MASKS]
    registers[1] = registers[1] & 0xEB | 0x40 if choose.random() < 0.8 else registers[1]
    vram = bytearray(choose.randrange(256) for _ in range(16384))
    for number in range(32):
        # sprites close together, so that there are five on a line and some meet
        vram[128 * registers[5] + 4 * number] = choose.randrange(60)
    state = registers + [choose.randrange(256), choose.randrange(64), choose.randrange(256)]
    waiting = choose.random() < 0.5
    return chip.snapshot(vram, state + [int(waiting), choose.randrange(256) if waiting else 0, choose.randrange(256)])


def random_calls(choose, count):
    """Calls of all kinds, with the values of reads left open."""
    for _ in range(count):
        operation = choose.choices(range(7), (30, 30, 20, 8, 8, 3, 0.2))[0]
        value = choose.randrange(192 if operation == 4 else 256)
        yield operation, (value, value, None, None, value, 0, 0)[operation]


FULL, LEFTMOST, RIGHTMOST, EARLY = 0, 4, 8, 0x80


def with_sprites(form, sprites):
    """A snapshot with these sprites, X, name and colour byte, on line 50: full squares, or one column at their left or right
    edge. The form has register 1's bits for size and magnify."""
    vram = bytearray(16384)
    attributes = bytes(byte for sprite in sprites for byte in (49, *sprite)) + bytes([208])
    vram[0x3B00:0x3B00 + len(attributes)] = attributes
    rows, behind = (16, 16) if form & 2 else (8, 0)
    for at, byte, count in ((0x1800, 0xFF, 32), (0x1820, 0x80, rows), (0x1840 + behind, 0x01, rows)):
        vram[at:at + count] = bytes([byte]) * count
    return chip.snapshot(vram, [0x00, 0x40 | form, 0x0E, 0xFF, 0x00, 0x76, 0x03, 0x04, 0, 0, 0, 0, 0, 0])


def meetings():
    """Names, snapshots and the status after line 50: sprites that meet, most of them off the screen, and some that touch."""
    for form in range(4):
        last = (16 if form & 2 else 8) * (2 if form & 1 else 1) - 1
        step = 2 if form & 1 else 1
        end = (255, RIGHTMOST, 0)
        for name, status, sprites in (
                ("first_column", 0x20, [(0, LEFTMOST, EARLY)] * 2),
                ("first_column_touched", 0x00, [(0, LEFTMOST, EARLY), (step, LEFTMOST, EARLY)]),
                ("left", 0x20, [(31 - last, RIGHTMOST, EARLY), (31, LEFTMOST, EARLY)]),
                ("left_edge_touched", 0x00, [(31 - last, RIGHTMOST, EARLY), (0, LEFTMOST, 0)]),
                ("left_edge", 0x20, [(32 - last, RIGHTMOST, EARLY), (0, LEFTMOST, 0)]),
                ("right_edge", 0x20, [(255 - last, RIGHTMOST, 0), (255, LEFTMOST, 0)]),
                ("right_edge_touched", 0x00, [(255 - last, RIGHTMOST, 0), (255 - last + step, RIGHTMOST, 0)]),
                ("right", 0x20, [(256 - last, RIGHTMOST, 0), (255 - last + step, RIGHTMOST, 0)]),
                ("last_column", 0x20, [end] * 2),
                ("last_column_touched", 0x00, [(255 - step, RIGHTMOST, 0), end]),
                ("fourth", 0x20, [(40, FULL, 7), end, (80, FULL, 7), end]),
                ("fifth", 0x44, [(40, FULL, 7), (80, FULL, 7), end, (120, FULL, 7), end])):
            for colour in (0, 9):
                coloured = [(x, shape, early | colour) for x, shape, early in sprites]
                yield "meeting_%s_form_%d_colour_%d" % (name, form, colour), with_sprites(form, coloured), status


def accepted():
    """Names, snapshots and records."""
    for name, start, status in meetings():
        # drawn once more, so that the snapshot has it too
        calls = [(4, 50), (3, status), (4, 50)]
        assert chip.Chip(start).run(calls) == (3, 3, 0), name
        yield name, start, calls
    for place, record in enumerate(((0, 0xAA), (1, 0x42), (2, 0x00), (3, 0x00), (4, 191), (5, 0), (6, 0))):
        yield "operation_%d" % place, POWER_UP, [record]
    yield "none", POWER_UP, []
    yield "line_0", POWER_UP, [(4, 0)]
    yield "status_differs", POWER_UP, [(5, 0), (3, 0x81), (0, 1)]
    yield "data_differs", POWER_UP, [(0, 0x12), (2, 0x13), (0, 1)]
    yield "first_differs", POWER_UP, [(2, 0x01), (0, 1)]
    yield "last_differs", POWER_UP, [(0, 1)] * 299 + [(2, 0x02)]
    yield "most_writes", POWER_UP, [(0, place % 253) for place in range(MOST)]
    yield "most_control_bytes", POWER_UP, [(1, place * 37 % 256) for place in range(MOST)]
    yield "most_and_last_differs", POWER_UP, [(0, place % 251) for place in range(MOST - 1)] + [(3, 0xFF)]
    choose = random.Random(9918)
    for number, count in enumerate([1, 19999, 20000] + [choose.randrange(1, 400) for _ in range(20)]):
        start = random_start(choose)
        calls = chip.with_right_reads(start, random_calls(choose, count))
        yield "random_%d" % number, start, calls
        reads = [place for place, (operation, _) in enumerate(calls) if operation in (2, 3)]
        if reads:
            place = choose.choice(reads)
            operation, value = calls[place]
            calls[place] = operation, value ^ 1 << choose.randrange(8)
            yield "random_%d_differs_at_%d" % (number, place), start, calls


def main(folder):
    def put(name, kind, data):
        with open(os.path.join(folder, name + kind), "wb") as file:
            file.write(data)

    for name, number, data in refused():
        put(name, ".in", data)
        put(name, ".out", b"")
        put(name, ".err", b"refused %d\n" % number)
    for name, start, calls in accepted():
        put(name, ".in", start + chip.log(calls))
        for kind, data in zip((".out", ".err"), chip.replayed(start, calls)):
            put(name, kind, data)


main(sys.argv[1])
