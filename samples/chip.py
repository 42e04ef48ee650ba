#!/usr/bin/env python3
"""The chip's ports, its status and its snapshot, and the run of a log: stored outputs of samples and tests are made by it.

It was written from the rules alone and shares nothing with the library. A drawn line changes status; its colours are not
made here. As a program it does what replay does, for an input that is good: the snapshot after the run goes to standard
output, and the line that tells of the run to standard error.
"""
import sys

MASKS = (0x03, 0xFB, 0x0F, 0xFF, 0x07, 0x7F, 0x07, 0xFF)
DATA_WRITE, CONTROL_WRITE, DATA_READ, STATUS_READ, DRAW_LINE, END_OF_DISPLAY, RESET = range(7)


def low_first(number):
    return bytes([number & 255, number >> 8 & 255])


def snapshot(vram, state):
    """VRAM, the 14 bytes of the state and the trailer."""
    body = bytes(vram) + bytes(state) + bytes([0x56, 0x31]) + low_first(14) + low_first(16398)
    return body + low_first(sum(body))


def log(records):
    """Records, pairs of an operation and a value, and the trailer."""
    body = bytes(byte for record in records for byte in record)
    return body + low_first(len(body)) + low_first(sum(body))


def records(data):
    """The records of a good log."""
    return list(zip(data[:-4:2], data[1:-4:2]))


class Chip:
    def __init__(self, data):
        """The chip of a good snapshot."""
        self.vram = bytearray(data[:16384])
        state = data[16384:16398]
        self.registers = list(state[:8])
        self.address = state[8] + 256 * state[9]
        self.buffer = state[10]
        self.first = state[12] if state[11] else None
        self.status = state[13]

    def snapshot(self):
        waiting = [0, 0] if self.first is None else [1, self.first]
        return snapshot(self.vram, [*self.registers, *low_first(self.address), self.buffer, *waiting, self.status])

    def step(self):
        self.address = (self.address + 1) % 16384

    def call(self, operation, value):
        """Makes the call of a record, and gives the byte that was read."""
        read = None
        if operation == CONTROL_WRITE:
            self.control_write(value)
        elif operation == DATA_WRITE:
            self.vram[self.address] = self.buffer = value
            self.step()
        elif operation == DATA_READ:
            read, self.buffer = self.buffer, self.vram[self.address]
            self.step()
        elif operation == STATUS_READ:
            read, self.status = self.status, self.status & 0x1F
        elif operation == DRAW_LINE:
            self.draw_line(value)
        elif operation == END_OF_DISPLAY:
            self.status |= 0x80
        elif operation == RESET:
            self.registers[0] = self.registers[1] = self.status = 0
        if operation in (DATA_WRITE, DATA_READ, STATUS_READ, RESET):
            self.first = None
        return read

    def control_write(self, byte):
        if self.first is None:
            self.first = byte
            return
        first, self.first = self.first, None
        self.address = byte % 64 * 256 + first
        if byte >= 0x80:
            self.registers[byte % 8] = first & MASKS[byte % 8]
        elif byte < 0x40:
            self.buffer = self.vram[self.address]
            self.step()

    def draw_line(self, line):
        """Status after the sprites of a line. Text, two mode bits and a display that is off have none."""
        r = self.registers
        if not r[1] & 0x40 or r[1] & 0x10 or r[0] & 0x02 and r[1] & 0x08:
            return
        scale = 2 if r[1] & 0x01 else 1
        large = r[1] & 0x02
        drawn = []
        for number in range(32):
            at = 128 * r[5] + 4 * number
            y, x, name, colour = self.vram[at:at + 4]
            if y == 208:
                break
            offset = (line - y - 1) % 256
            if offset >= scale * (16 if large else 8):
                continue
            if len(drawn) == 4:
                if not self.status & 0xC0:
                    self.status = self.status & 0x20 | 0x40 | number
                break
            at = 2048 * r[6] + 8 * (name & 0xFC if large else name) + offset // scale
            bits = "{:08b}".format(self.vram[at]) + ("{:08b}".format(self.vram[at + 16]) if large else "")
            left = x - (32 if colour & 0x80 else 0)
            # all columns, those off the screen too
            drawn.append({left + column for column in range(scale * len(bits)) if bits[column // scale] == "1"})
        if sum(map(len, drawn)) > len(set().union(*drawn)):
            self.status |= 0x20

    def run(self, records):
        """Records done, the place of the first read that differs or the number of records, the byte found or 0."""
        for place, (operation, value) in enumerate(records):
            read = self.call(operation, value)
            if operation in (DATA_READ, STATUS_READ) and read != value:
                return place + 1, place, read
        return len(records), len(records), 0


def replayed(data, records):
    """What replay writes for a good snapshot and a log of these records: standard output, and the line on standard error."""
    chip = Chip(data)
    outcome = "done %d place %d found %d\n" % chip.run(records)
    return chip.snapshot(), outcome.encode()


def with_right_reads(data, records):
    """The records with the value of each read put right, where it is None."""
    chip, right = Chip(data), []
    for operation, value in records:
        read = chip.call(operation, value)
        right.append((operation, read if value is None else value))
    return right


if __name__ == "__main__":
    given = sys.stdin.buffer.read()
    after, line = replayed(given[:16406], records(given[16406:]))
    sys.stdout.buffer.write(after)
    sys.stderr.write(line.decode())
