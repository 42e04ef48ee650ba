"""The colour of a pixel and where it comes from, by the rules and by no other code of this repository."""


def mode(r):
    """From registers 0 and 1. "blank" has neither pattern nor sprites: the display is off, or two mode bits are on."""
    m1, m2, m3 = bool(r[1] & 0x10), bool(r[1] & 0x08), bool(r[0] & 0x02)
    if not r[1] & 0x40 or m1 + m2 + m3 > 1:
        return "blank"
    return "Text" if m1 else "Multicolor" if m2 else "Graphics II" if m3 else "Graphics I"


def nibble(byte, high):
    return byte >> 4 if high else byte & 15


def pattern_plane(vram, r, line, column):
    """Its colour, 0 where it does not show, and the words for where that comes from."""
    kind = mode(r)
    if kind == "blank" or kind == "Text" and not 8 <= column <= 247:
        return 0, None
    if kind == "Text":
        cell, bit = divmod(column - 8, 6)
        name_at = 1024 * r[2] + line // 8 * 40 + cell
        pattern_at = 2048 * r[4] + 8 * vram[name_at] + line % 8
        words = "pattern plane, name at %d, pattern at %d, colours in register 7" % (name_at, pattern_at)
        return nibble(r[7], vram[pattern_at] << bit & 0x80), words
    name_at = 1024 * r[2] + line // 8 * 32 + column // 8
    name = vram[name_at]
    if kind == "Multicolor":
        colours_at = 2048 * r[4] + 8 * name + line // 4 % 8
        return nibble(vram[colours_at], column % 8 < 4), "pattern plane, name at %d, colours at %d" % (name_at, colours_at)
    if kind == "Graphics I":
        pattern_at, colours_at = 2048 * r[4] + 8 * name + line % 8, 64 * r[3] + name // 8
    else:
        offset = line // 64 * 2048 + 8 * name + line % 8
        pattern_at, colours_at = r[4] // 4 * 8192 + offset, r[3] // 128 * 8192 + offset
    words = "pattern plane, name at %d, pattern at %d, colours at %d" % (name_at, pattern_at, colours_at)
    return nibble(vram[colours_at], vram[pattern_at] << column % 8 & 0x80), words


def sprites(vram, r, line):
    """For each column at which a sprite shows, the one with the lowest number."""
    shown, covering = {}, 0
    if mode(r) in ("blank", "Text"):
        return shown
    scale, large = 1 + (r[1] & 0x01), r[1] & 0x02
    for number in range(32):
        at = 128 * r[5] + 4 * number
        y, x, name, last = vram[at:at + 4]
        if y == 208:
            break
        offset = (line - y - 1) % 256
        if offset >= scale * (16 if large else 8):
            continue
        covering += 1
        if covering == 5:
            break
        row_at = 2048 * r[6] + 8 * (name - name % 4 if large else name) + offset // scale
        bits = "{:08b}".format(vram[row_at]) + ("{:08b}".format(vram[row_at + 16]) if large else "")
        for k in range(scale * len(bits)):
            if last & 15 and bits[k // scale] == "1":
                column = x - (32 if last & 0x80 else 0) + k
                shown.setdefault(column, (last & 15, "sprite %d, attributes at %d" % (number, at)))
    return shown


def pixels(data, line):
    """Colour and words for each of the 256 columns, from a snapshot's bytes."""
    vram, r = data[:16384], data[16384:16392]
    backdrop = r[7] & 15, "backdrop, register 7"
    if not backdrop[0]:
        backdrop = (0, "external video") if r[0] & 0x01 else (1, "black by default")
    found, in_front = [], sprites(vram, r, line)
    for column in range(256):
        pattern = pattern_plane(vram, r, line, column)
        found.append(in_front.get(column) or (pattern if pattern[0] else backdrop))
    return found
