#!/usr/bin/env python3
"""Makes the snapshots that show has to refuse, each in a file NAME.snap of the folder given, and the number in NAME.number."""
import os
import sys

SIZE, BLOCK, TRAILER = 16406, 16384, 16398
MASKS = (0x03, 0xFB, 0x0F, 0xFF, 0x07, 0x7F, 0x07, 0xFF)


def snapshot(changes=(), summed=True):
    """The power-up snapshot with bytes changed; the sum is made right unless told otherwise."""
    data = bytearray(SIZE)
    data[TRAILER:TRAILER + 6] = bytes([0x56, 0x31, 0x0E, 0x00, 0x0E, 0x40])
    for at, byte in changes:
        data[at] = byte
    if summed:
        total = sum(data[:SIZE - 2]) % 65536
        data[SIZE - 2:] = bytes([total & 255, total >> 8])
    return bytes(data)


def refused_snapshots():
    """Names, refusal numbers and bytes."""
    cases = []

    def refused(name, number, data):
        cases.append((name, number, data))

    whole = snapshot()
    refused("empty", 5, b"")
    refused("short", 5, whole[:-1])
    refused("short_at_front", 5, whole[1:])
    refused("long", 5, whole + b"\0")
    refused("twice", 5, whole + whole)
    for k in (0, 1):
        refused("signature_%d" % k, 6, snapshot([(TRAILER + k, 0x55)]))
    for k, byte in ((2, 0x0F), (3, 0x01), (4, 0x0F), (5, 0x41)):
        refused("distance_%d" % k, 6, snapshot([(TRAILER + k, byte)]))
    refused("distance_swapped", 6, snapshot([(TRAILER + 4, 0x40), (TRAILER + 5, 0x0E)]))
    refused("sum_low", 7, whole[:-2] + bytes([whole[-2] ^ 1, whole[-1]]))
    refused("sum_high", 7, whole[:-1] + bytes([whole[-1] ^ 1]))
    refused("byte_changed", 7, whole[:100] + b"\1" + whole[101:])
    for n, mask in enumerate(MASKS):
        if mask != 0xFF:
            refused("register_%d" % n, 3, snapshot([(BLOCK + n, 0xFF)]))
            refused("register_%d_one_bit" % n, 3, snapshot([(BLOCK + n, ~mask & 0xFF & -(~mask & 0xFF))]))
    refused("address", 3, snapshot([(BLOCK + 9, 0x40)]))
    refused("address_high", 3, snapshot([(BLOCK + 8, 0xFF), (BLOCK + 9, 0xFF)]))
    refused("flag_2", 3, snapshot([(BLOCK + 11, 2)]))
    refused("flag_255", 3, snapshot([(BLOCK + 11, 255), (BLOCK + 12, 7)]))
    refused("first_byte", 3, snapshot([(BLOCK + 12, 1)]))
    # two at once: the earlier of 5, 6, 7, 3 is told
    refused("short_and_signature", 5, snapshot([(TRAILER, 0)])[:-1])
    refused("signature_and_sum", 6, snapshot([(TRAILER, 0)], summed=False))
    refused("signature_and_register", 6, snapshot([(TRAILER + 1, 0), (BLOCK, 0xFF)]))
    refused("sum_and_register", 7, snapshot([(BLOCK, 0xFF)], summed=False))
    refused("sum_and_flag", 7, snapshot([(BLOCK + 11, 2)], summed=False))
    refused("distance_and_first_byte", 6, snapshot([(TRAILER + 2, 0), (BLOCK + 12, 1)]))
    return cases


def main(folder):
    for name, number, data in refused_snapshots():
        with open(os.path.join(folder, name + ".snap"), "wb") as file:
            file.write(data)
        with open(os.path.join(folder, name + ".number"), "w") as file:
            file.write("%d" % number)


if __name__ == "__main__":
    main(sys.argv[1])
