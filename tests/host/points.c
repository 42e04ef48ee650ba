/* The calls that answer a point's colour and its origin, from C: each refusal number, the right one when two apply at once,
 * and nothing changed by any call; points of each mode; every point of many states against the drawn lines; and that no byte
 * of VRAM counts but those of the point's cell and of the line's sprites. */
#include "check.h"

enum { LINES = VDP_LINES, COLUMNS = VDP_LINE_SIZE };

static struct lent now, before;

typedef uint32_t call(const uint8_t *, size_t, const uint8_t *, size_t, uint32_t, uint32_t);

/* A colour and its origin, or both answers, in one number. */
#define PIXEL(colour, origin) ((uint32_t)(colour) + 65536u * (uint32_t)(origin))

static uint32_t pixel(uint32_t line, uint32_t column)
{
    return PIXEL(vdp_point(now.block, VDP_BLOCK_SIZE, now.vram, VDP_VRAM_SIZE, line, column), vdp_origin(now.block, VDP_BLOCK_SIZE, now.vram, VDP_VRAM_SIZE, line, column));
}

static int unchanged(void) { return memcmp(&now, &before, sizeof now) == 0; }

static void put(unsigned at, const uint8_t *bytes, size_t count)
{
    memcpy(now.vram + at, bytes, count);
}
#define PUT(at, ...) put(at, (const uint8_t[]){ __VA_ARGS__ }, sizeof((const uint8_t[]){ __VA_ARGS__ }))

/* A state in which line 0 and line 191 each have five sprites of which some meet, while 5S and F are clear: Graphics I with
 * size and magnify. The four corners of the picture have colours of their own: the first has sprite 0's, the last sprite 7's,
 * and the others the pattern plane's. A first byte waits, and others were lost. */
static void fill(void)
{
    static const uint8_t block[VDP_BLOCK_SIZE] = { 0x00, 0xE3, 0x05, 0x80, 0x01, 0x20, 0x03, 0xF1, 0x34, 0x12, 0x99, 1, 0xFF, 0x00, 1, 0x67, 0x2B };
    size_t i;
    for (i = 0; i < sizeof now.vram; i++) now.vram[i] = (uint8_t)(i * 7 + i / 256 + 1);
    for (i = 0; i < sizeof now.map; i++) now.map[i] = (uint8_t)(i % 3);
    memcpy(now.block, block, sizeof block);
    now.block[VDP_BLOCK_SIZE] = 0x77;
    for (unsigned n = 0; n < 10; n++) PUT(0x1000 + 4 * n, (uint8_t)(n < 5 ? 255 : 190), 100, 0, 8);
    PUT(0x1000, 255, 0, 0, 6);
    PUT(0x101C, 190, 255, 0, 9);
    PUT(0x1028, 0xD0);
    PUT(0x1800, 0xFF);
    PUT(0x141F, 8), PUT(0x0840, 0x01), PUT(0x2001, 0x31);
    PUT(0x16E0, 16), PUT(0x0887, 0x80), PUT(0x2002, 0xC1);
}

static const uint32_t lines[] = { 0, 191, 192, 255, 256, 447, 0xFFFFFFFF };
static const uint32_t columns[] = { 0, 255, 256, 257, 511, 65536, 0xFFFFFFFF };
static const unsigned corner_colours[2][2] = { { 6, 3 }, { 12, 9 } }, corner_origins[2][2] = { { 0, 32 }, { 32, 7 } };
enum { GOOD = 2, NUMBERS = 7 };

/* Every combination of lengths, contents, lines and columns: the first test that fails, in the order 1, 2, 3, 4, 13,
 * decides. */
static void refusal(const char *name, call *call, const unsigned corners[2][2], int v, int b, int way, int l, int c)
{
    unsigned want = v ? VDP_VRAM_LENGTH : b ? VDP_SLICE_LENGTH : way ? VDP_ILL_FORMED : l >= GOOD ? VDP_LINE_NUMBER : c >= GOOD ? VDP_COLUMN_NUMBER : VDP_ACCEPTED;
    char what[160];
    spoil(now.block, way);
    before = now;
    uint32_t got = call(now.block, block_lens[b], now.vram, vram_lens[v], lines[l], columns[c]);
    snprintf(what, sizeof what, "%s: vram %zu, block %zu, contents %d, line %u, column %u: answer %u, refusal %u wanted", name, vram_lens[v], block_lens[b], way, (unsigned)lines[l], (unsigned)columns[c], (unsigned)got, want);
    check(got == (want ? want * 256 : corners[l][c]), what);
    check(unchanged(), what);
}

static void refusals(const char *name, call *call, const unsigned corners[2][2])
{
    static struct lent start;
    fill();
    start = now;
    for (int v = 0; v < 4; v++)
        for (int b = 0; b < BLOCK_LENS; b++)
            for (int way = 0; way < WAYS; way++)
                for (int l = 0; l < NUMBERS; l++)
                    for (int c = 0; c < NUMBERS; c++) {
                        now = start;
                        refusal(name, call, corners, v, b, way, l, c);
                    }
}

/* In the state above a drawn line moves status. A point does not, at any column. */
static void status_stays(void)
{
    static const uint8_t moved[2] = { 0x64, 0x69 };
    uint8_t block[VDP_BLOCK_SIZE], drawn[COLUMNS], from[COLUMNS];
    for (int l = 0; l < GOOD; l++) {
        unsigned wrong = 0;
        fill();
        before = now;
        memcpy(block, now.block, sizeof block);
        check(vdp_draw_line(block, sizeof block, now.vram, VDP_VRAM_SIZE, drawn, sizeof drawn, from, sizeof from, lines[l]) == 0 && block[13] == moved[l], "a drawn line moves status");
        for (unsigned x = 0; x < COLUMNS; x++) wrong += pixel(lines[l], x) != PIXEL(drawn[x], from[x]);
        check(wrong == 0 && unchanged(), "a point leaves status as it was");
    }
}

/* What the point shows is no matter of address, buffer, waiting byte, status, redraw mark and count. */
static void other_states(void)
{
    uint32_t first[2][COLUMNS];
    unsigned wrong = 0;
    fill();
    for (int l = 0; l < GOOD; l++)
        for (unsigned x = 0; x < COLUMNS; x++) first[l][x] = pixel(lines[l], x);
    for (unsigned byte = 0; byte < 256; byte++) {
        now.block[8] = now.block[10] = now.block[13] = now.block[15] = now.block[16] = (uint8_t)byte;
        now.block[9] = (uint8_t)(byte % 64);
        now.block[11] = byte % 2;
        now.block[12] = (uint8_t)(byte % 2 ? byte : 0);
        now.block[14] = byte / 2 % 2;
        before = now;
        for (int l = 0; l < GOOD; l++)
            for (unsigned x = 0; x < COLUMNS; x++) wrong += pixel(lines[l], x) != first[l][x];
        wrong += !unchanged();
    }
    check(wrong == 0, "the point in other states");
}

/* State and VRAM where nothing can be written: at power-up every point is black by default. A write ends the test here. */
static void read_only(void)
{
    static const uint8_t block[VDP_BLOCK_SIZE] = { 0 }, vram[VDP_VRAM_SIZE] = { 0 };
    unsigned wrong = 0;
    fflush(stdout);
    for (uint32_t line = 0; line < LINES; line++)
        for (uint32_t x = 0; x < COLUMNS; x++) wrong += vdp_point(block, sizeof block, vram, sizeof vram, line, x) != 1 || vdp_origin(block, sizeof block, vram, sizeof vram, line, x) != 34;
    check(wrong == 0, "the points of a state that cannot be written");
}

/* The rules for one point, with a mark for each byte that it takes from VRAM. */

static uint8_t fetched[VDP_VRAM_SIZE];

static unsigned fetch(unsigned at)
{
    fetched[at] = 1;
    return now.vram[at];
}

static unsigned reg(int n) { return now.block[n]; }

enum mode { GRAPHICS_I, GRAPHICS_II, MULTICOLOR, TEXT, BLANK };

static enum mode mode(void)
{
    int m1 = (reg(1) & 0x10) != 0, m2 = (reg(1) & 0x08) != 0, m3 = (reg(0) & 0x02) != 0;
    if (!(reg(1) & 0x40) || m1 + m2 + m3 > 1) return BLANK;
    return m1 ? TEXT : m2 ? MULTICOLOR : m3 ? GRAPHICS_II : GRAPHICS_I;
}

static unsigned half(unsigned byte, unsigned high) { return high ? byte / 16 : byte % 16; }

static unsigned pattern_colour(unsigned line, unsigned x)
{
    enum mode m = mode();
    unsigned name, pattern, colours, q;
    if (m == BLANK || (m == TEXT && (x < 8 || x > 247))) return 0;
    if (m == TEXT) {
        name = fetch(reg(2) * 1024 + line / 8 * 40 + (x - 8) / 6);
        pattern = fetch(reg(4) * 2048 + 8 * name + line % 8);
        return half(reg(7), pattern >> (7 - (x - 8) % 6) & 1);
    }
    name = fetch(reg(2) * 1024 + line / 8 * 32 + x / 8);
    if (m == MULTICOLOR) return half(fetch(reg(4) * 2048 + 8 * name + line / 4 % 8), x % 8 < 4);
    q = line / 64 * 2048 + 8 * name + line % 8;
    pattern = fetch(m == GRAPHICS_I ? reg(4) * 2048 + 8 * name + line % 8 : reg(4) / 4 * 8192 + q);
    colours = fetch(m == GRAPHICS_I ? reg(3) * 64 + name / 8 : reg(3) / 128 * 8192 + q);
    return half(colours, pattern >> (7 - x % 8) & 1);
}

static unsigned sprite_colour(unsigned line, unsigned x, unsigned *number)
{
    int large = (reg(1) & 0x02) != 0, scale = reg(1) & 0x01 ? 2 : 1, covering = 0;
    unsigned colour = 0;
    if (mode() == BLANK || mode() == TEXT) return 0;
    for (unsigned n = 0; n < 32; n++) {
        unsigned at = reg(5) * 128 + 4 * n, y = fetch(at), offset = (line - y - 1) % 256;
        int across;
        if (y == 208) break;
        if (offset >= (unsigned)(scale * (large ? 16 : 8))) continue;
        if (++covering == 5) break;
        unsigned left = fetch(at + 1), name = fetch(at + 2), last = fetch(at + 3);
        unsigned row = reg(6) * 2048 + 8 * (large ? name / 4 * 4 : name) + offset / (unsigned)scale;
        unsigned bits = 256 * fetch(row);
        if (large) bits += fetch(row + 16);
        across = (int)x - (int)left + (last & 0x80 ? 32 : 0);
        if (colour == 0 && across >= 0 && across < 16 * scale && bits >> (15 - across / scale) & 1) colour = last % 16, *number = n;
    }
    return colour;
}

static uint32_t rule(unsigned line, unsigned x)
{
    unsigned number = 0, sprite = sprite_colour(line, x, &number), pattern = pattern_colour(line, x), backdrop = reg(7) % 16;
    if (sprite) return PIXEL(sprite, number);
    if (pattern) return PIXEL(pattern, 32);
    if (backdrop) return PIXEL(backdrop, 33);
    return reg(0) & 0x01 ? PIXEL(0, 35) : PIXEL(1, 34);
}

/* A set-up on zero VRAM with nothing waiting, the redraw mark set and first bytes lost. */
static void set_up(const uint8_t registers[8])
{
    memset(&now, 0, sizeof now);
    memcpy(now.block, registers, 8);
    now.block[14] = 1;
    put_lost(now.block, 0xFFFE);
}

/* The points of the line are these runs of count, colour and origin, by the calls and by the rules above, and nothing has
 * changed. */
static void shows(const char *what, uint32_t line, const int runs[][3], int count)
{
    int x = 0, answered = 0, ruled = 0;
    char text[160];
    before = now;
    for (int r = 0; r < count; r++)
        for (int k = 0; k < runs[r][0]; k++, x++) {
            answered += pixel(line, (uint32_t)x) == PIXEL(runs[r][1], runs[r][2]);
            ruled += rule(line, (unsigned)x) == PIXEL(runs[r][1], runs[r][2]);
        }
    snprintf(text, sizeof text, "%s: line %u: %d of 256 points right", what, (unsigned)line, answered);
    check(x == COLUMNS && answered == COLUMNS && unchanged(), text);
    snprintf(text, sizeof text, "%s: line %u: the test's rules give %d of 256", what, (unsigned)line, ruled);
    check(ruled == COLUMNS, text);
}
#define SHOWS(what, line, ...) \
    shows(what, line, (const int[][3]){ __VA_ARGS__ }, (int)(sizeof((const int[][3]){ __VA_ARGS__ }) / sizeof(int[3])))

/* The worked set-ups of the manual and of the guide, and points of each mode. */
static void patterns(void)
{
    static const uint8_t graphics_i[8] = { 0x00, 0xC0, 0x05, 0x80, 0x01, 0x20, 0x00, 0x01 };
    static const uint8_t graphics_ii[8] = { 0x02, 0xC2, 0x0E, 0xFF, 0x03, 0x76, 0x03, 0x0F };
    static const uint8_t multicolor[8] = { 0x00, 0xCB, 0x05, 0x00, 0x01, 0x20, 0x00, 0x04 };
    static const uint8_t text[8] = { 0x00, 0xD0, 0x02, 0x00, 0x00, 0x20, 0x00, 0x71 };
    static const uint8_t off[8] = { 0x00, 0x80, 0x05, 0x80, 0x01, 0x20, 0x00, 0x06 };

    set_up(graphics_i);
    SHOWS("Graphics I over zero VRAM", 1, { 256, 1, 33 });
    PUT(0x1400, 0, 1, 8);
    PUT(0x0808, 0xA5);
    PUT(0x2000, 0x62, 0x73);
    PUT(0x0000, 0xC3);
    PUT(0x1000, 0xFF, 100, 0, 8, 0xD0);
    SHOWS("Graphics I: a pattern and a sprite", 0, { 8, 2, 32 }, { 1, 6, 32 }, { 1, 2, 32 }, { 1, 6, 32 }, { 2, 2, 32 }, { 1, 6, 32 }, { 1, 2, 32 }, { 1, 6, 32 }, { 8, 3, 32 }, { 76, 2, 32 }, { 2, 8, 0 }, { 4, 2, 32 }, { 2, 8, 0 }, { 148, 2, 32 });

    set_up(graphics_ii);
    memset(now.vram + 0x2000, 0x4F, 0x1800);
    for (int i = 0; i < 768; i++) now.vram[0x3800 + i] = (uint8_t)i;
    PUT(0x3B00, 0xD0);
    PUT(0x17FF, 0x01);
    SHOWS("Graphics II: the bottom right pixel", 191, { 255, 15, 32 }, { 1, 4, 32 });
    PUT(0x0800, 0x80);
    PUT(0x2800, 0xA3);
    SHOWS("Graphics II: the second third", 64, { 1, 10, 32 }, { 7, 3, 32 }, { 248, 15, 32 });
    now.block[3] = 0x80, now.block[4] = 0x00;
    SHOWS("Graphics II: lower bits of registers 3 and 4", 64, { 1, 10, 32 }, { 7, 3, 32 }, { 248, 15, 32 });
    PUT(0x3B00, 63, 4, 1, 6, 0xD0);
    PUT(0x1800, 0xC0);
    SHOWS("Graphics II: a sprite", 64, { 1, 10, 32 }, { 3, 3, 32 }, { 2, 6, 0 }, { 2, 3, 32 }, { 248, 15, 32 });

    set_up(multicolor);
    memset(now.vram + 0x1400, 0x40, 768);
    PUT(0x1400, 2);
    PUT(0x0810, 0x64, 0x46);
    PUT(0x1000, 0xD0);
    SHOWS("Multicolor: the first byte", 3, { 4, 6, 32 }, { 4, 4, 32 }, { 248, 4, 33 });
    SHOWS("Multicolor: the second byte", 4, { 4, 4, 32 }, { 4, 6, 32 }, { 248, 4, 33 });
    PUT(0x16FF, 2);
    PUT(0x0817, 0x9A);
    SHOWS("Multicolor: byte 7", 191, { 248, 4, 33 }, { 4, 9, 32 }, { 4, 10, 32 });
    PUT(0x1000, 190, 246, 0, 13, 0xD0);
    PUT(0x0000, 0xC0);
    SHOWS("Multicolor: a sprite", 191, { 246, 4, 33 }, { 4, 13, 0 }, { 2, 9, 32 }, { 4, 10, 32 });

    set_up(text);
    PUT(0x0800, 1);
    PUT(0x0008, 0x7C, 0x04, 0x04, 0x3C, 0x04, 0x04, 0x7C, 0x00);
    SHOWS("Text: a letter", 0, { 8, 1, 33 }, { 1, 1, 32 }, { 5, 7, 32 }, { 234, 1, 32 }, { 8, 1, 33 });
    SHOWS("Text: the letter's row 3", 3, { 8, 1, 33 }, { 2, 1, 32 }, { 4, 7, 32 }, { 234, 1, 32 }, { 8, 1, 33 });
    PUT(0x0010, 0xFF, 0x84, 0x03);
    PUT(0x0800 + 23 * 40, 2);
    PUT(0x0800 + 23 * 40 + 39, 2);
    PUT(0x1000, 183, 0, 0, 9, 183, 240, 0, 9);
    SHOWS("Text: both margins", 184, { 8, 1, 33 }, { 6, 7, 32 }, { 228, 1, 32 }, { 6, 7, 32 }, { 8, 1, 33 });
    SHOWS("Text: the first and the last bit", 185, { 8, 1, 33 }, { 1, 7, 32 }, { 4, 1, 32 }, { 1, 7, 32 }, { 228, 1, 32 }, { 1, 7, 32 }, { 4, 1, 32 }, { 1, 7, 32 }, { 8, 1, 33 });
    SHOWS("Text: two bits that do not show", 186, { 8, 1, 33 }, { 240, 1, 32 }, { 8, 1, 33 });

    set_up(off);
    memset(now.vram, 0x55, sizeof now.vram);
    SHOWS("display off", 100, { 256, 6, 33 });
    now.block[0] = 0x02, now.block[1] = 0xD0;
    SHOWS("two mode bits", 1, { 256, 6, 33 });
    now.block[1] = 0xD8;
    SHOWS("three mode bits", 191, { 256, 6, 33 });
}

/* All planes 0, in each mode and without one. */
static void nothing_to_show(void)
{
    static const uint8_t modes[7][2] = { { 0x00, 0x40 }, { 0x02, 0x40 }, { 0x00, 0x48 }, { 0x00, 0x50 }, { 0x00, 0x00 }, { 0x02, 0x50 }, { 0x00, 0x58 } };
    for (int m = 0; m < 7; m++) {
        uint8_t registers[8] = { modes[m][0], modes[m][1], 0x05, 0x80, 0x01, 0x20, 0x00, 0x00 };
        set_up(registers);
        SHOWS("all planes 0, external video off", 20, { 256, 1, 34 });
        now.block[0] |= 0x01;
        SHOWS("all planes 0, external video on", 20, { 256, 0, 35 });
        now.block[7] = 0x0E;
        if (m == TEXT)
            SHOWS("a backdrop, external video on", 20, { 8, 14, 33 }, { 240, 14, 32 }, { 8, 14, 33 });
        else
            SHOWS("a backdrop, external video on", 20, { 256, 14, 33 });
    }
}

/* Sprites over backdrop 4, their patterns at 0 and their attributes at hex 1000. */
static void sprites_of(uint8_t form)
{
    uint8_t registers[8] = { 0x00, (uint8_t)(0xC0 + form), 0x05, 0x80, 0x01, 0x20, 0x00, 0x04 };
    set_up(registers);
}

/* The left four columns of sprites 8 wide, on line 50. */
static void sprites(void)
{
    sprites_of(0);
    PUT(0x0000, 0xF0);
    PUT(0x1000, 49, 10, 0, 5, 49, 12, 0, 6, 0xD0);
    SHOWS("sprites that overlap", 50, { 10, 4, 33 }, { 4, 5, 0 }, { 2, 6, 1 }, { 240, 4, 33 });
    PUT(0x1000, 49, 12, 0, 6, 49, 10, 0, 5, 0xD0);
    SHOWS("sprites that overlap, in the other order", 50, { 10, 4, 33 }, { 2, 5, 1 }, { 4, 6, 0 }, { 240, 4, 33 });
    PUT(0x1000, 49, 10, 0, 0, 49, 12, 0, 6, 0xD0);
    SHOWS("colour 0 in front", 50, { 12, 4, 33 }, { 4, 6, 1 }, { 240, 4, 33 });
    PUT(0x1000, 49, 10, 0, 0x70, 49, 12, 0, 0x76, 0xD0);
    SHOWS("bits of the colour byte without effect", 50, { 12, 4, 33 }, { 4, 6, 1 }, { 240, 4, 33 });
    PUT(0x1000, 49, 10, 0, 0, 49, 20, 0, 2, 49, 30, 0, 3, 49, 40, 0, 5, 49, 50, 0, 6, 0xD0);
    SHOWS("colour 0 among the four, and a fifth", 50, { 20, 4, 33 }, { 4, 2, 1 }, { 6, 4, 33 }, { 4, 3, 2 }, { 6, 4, 33 }, { 4, 5, 3 }, { 212, 4, 33 });
    PUT(0x1000, 49, 10, 0, 1, 60, 15, 0, 9, 49, 20, 0, 2, 49, 30, 0, 3, 41, 35, 0, 9, 49, 40, 0, 5, 49, 50, 0, 6, 0xD0);
    SHOWS("others between the four", 50, { 10, 4, 33 }, { 4, 1, 0 }, { 6, 4, 33 }, { 4, 2, 2 }, { 6, 4, 33 }, { 4, 3, 3 }, { 6, 4, 33 }, { 4, 5, 5 }, { 212, 4, 33 });
    PUT(0x1000, 49, 10, 0, 5, 208, 15, 0, 9, 49, 20, 0, 6);
    SHOWS("the terminator between two", 50, { 10, 4, 33 }, { 4, 5, 0 }, { 242, 4, 33 });
    PUT(0x1000, 0xD0);
    SHOWS("the terminator first", 50, { 256, 4, 33 });
    for (unsigned n = 0; n < 31; n++) PUT(0x1000 + 4 * n, 100, 40, 0, 9);
    PUT(0x107C, 49, 200, 0, 8);
    SHOWS("sprite 31 alone", 50, { 200, 4, 33 }, { 4, 8, 31 }, { 52, 4, 33 });
    PUT(0x1000, 49, 254, 0, 5, 0xD0);
    SHOWS("over the right edge", 50, { 254, 4, 33 }, { 2, 5, 0 });
    PUT(0x1000, 49, 255, 0, 5, 0xD0);
    SHOWS("the last column", 50, { 255, 4, 33 }, { 1, 5, 0 });
    PUT(0x1000, 49, 30, 0, 0x85, 0xD0);
    SHOWS("early clock: half past the left edge", 50, { 2, 5, 0 }, { 254, 4, 33 });
    PUT(0x1000, 49, 28, 0, 0x85, 0xD0);
    SHOWS("early clock: wholly past it", 50, { 256, 4, 33 });
    PUT(0x1000, 49, 255, 0, 0x85, 0xD0);
    SHOWS("early clock: at the right", 50, { 223, 4, 33 }, { 4, 5, 0 }, { 29, 4, 33 });
    PUT(0x1000, 49, 28, 0, 0x81, 49, 0, 0, 0x81, 49, 10, 0, 0, 49, 10, 0, 2, 49, 20, 0, 3, 0xD0);
    SHOWS("those past the edge are among the four", 50, { 10, 4, 33 }, { 4, 2, 3 }, { 242, 4, 33 });

    sprites_of(3);
    PUT(0x0030, 0x01);
    PUT(0x0038, 0xFF);
    PUT(0x1000, 49, 1, 7, 0x85, 0xD0);
    SHOWS("early clock, 32 wide, X 1: column 0", 50, { 1, 5, 0 }, { 255, 4, 33 });
    PUT(0x1000, 49, 0, 7, 0x85, 0xD0);
    SHOWS("early clock, 32 wide, X 0: none", 50, { 256, 4, 33 });
    PUT(0x1000, 49, 60, 7, 5, 0xD0);
    SHOWS("the right half, magnified", 51, { 90, 4, 33 }, { 2, 5, 0 }, { 164, 4, 33 });
    SHOWS("the second row, magnified", 52, { 256, 4, 33 });
}

/* A slanting line, one bit to a row, that comes in over the top edge: its row on line 0. */
static void top_edge(void)
{
    static const struct { uint8_t form, y; int row; } cases[] = {
        { 0, 255, 0 }, { 0, 248, 7 }, { 0, 247, -1 }, { 0, 240, -1 }, { 0, 224, -1 }, { 0, 0, -1 },
        { 1, 255, 0 }, { 1, 254, 0 }, { 1, 253, 1 }, { 1, 248, 3 }, { 1, 240, 7 }, { 1, 239, -1 }, { 1, 224, -1 }, { 1, 0, -1 },
        { 2, 255, 0 }, { 2, 254, 1 }, { 2, 248, 7 }, { 2, 247, 8 }, { 2, 240, 15 }, { 2, 239, -1 }, { 2, 224, -1 }, { 2, 0, -1 },
        { 3, 255, 0 }, { 3, 254, 0 }, { 3, 253, 1 }, { 3, 248, 3 }, { 3, 240, 7 }, { 3, 239, 8 }, { 3, 225, 15 }, { 3, 224, 15 }, { 3, 223, -1 }, { 3, 0, -1 }
    };
    for (size_t n = 0; n < sizeof cases / sizeof cases[0]; n++) {
        int wide = cases[n].form % 2 ? 2 : 1, row = cases[n].row;
        char what[80];
        sprites_of(cases[n].form);
        for (int r = 0; r < 8; r++) now.vram[r] = now.vram[24 + r] = (uint8_t)(0x80 >> r);
        PUT(0x1000, cases[n].y, 100, 0, 9, 0xD0);
        snprintf(what, sizeof what, "top edge: size %d, magnify %d, Y %d", cases[n].form / 2, wide - 1, cases[n].y);
        if (row < 0)
            SHOWS(what, 0, { 256, 4, 33 });
        else
            SHOWS(what, 0, { 100 + wide * row, 4, 33 }, { wide, 9, 0 }, { 156 - wide * row - wide, 4, 33 });
    }
}

static uint32_t seed;

static unsigned chance(unsigned below)
{
    seed = seed * 1664525u + 1013904223u;
    return (seed >> 16) % below;
}

static const struct { const char *name; uint8_t r0, r1; } modes[] = {
    { "Graphics I", 0x00, 0x40 }, { "Graphics II", 0x02, 0x40 }, { "Multicolor", 0x00, 0x48 }, { "Text", 0x00, 0x50 },
    { "display off", 0x00, 0x00 }, { "display off, M3", 0x02, 0x00 }, { "M1 and M2", 0x00, 0x58 }, { "M1 and M3", 0x02, 0x50 }, { "M2 and M3", 0x02, 0x48 }, { "all three", 0x02, 0x58 }
};
enum { SHOWING = 4, MODES = 10, FORMS = 4, TURNS = 4, HEAP = 1 };

/* A state with tables anywhere, full of anything. The sprites stand all over the screen, or in a heap in its upper part, or
 * come in over its top edge, or are whatever VRAM has there. A quarter of them has colour 0. */
static void busy(int m, int form, int turn)
{
    static const uint8_t masks[8] = { 0x03, 0xFB, 0x0F, 0xFF, 0x07, 0x7F, 0x07, 0xFF };
    static const unsigned lowest[TURNS] = { 0, 0, 216, 0 }, range[TURNS] = { 208, 60, 40, 0 };
    seed = (uint32_t)(m * 100 + form * 10 + turn);
    memset(&now, 0, sizeof now);
    for (size_t i = 0; i < sizeof now.vram; i++) now.vram[i] = (uint8_t)chance(256);
    for (int n = 2; n < 8; n++) now.block[n] = (uint8_t)(chance(256) & masks[n]);
    now.block[0] = (uint8_t)(modes[m].r0 + turn / 2);
    now.block[1] = (uint8_t)(modes[m].r1 + 0x80 + form);
    if (turn % 2) now.block[7] &= 0xF0;
    for (unsigned n = 0; n < 32 && range[turn]; n++) {
        uint8_t *at = now.vram + reg(5) * 128 + 4 * n;
        at[0] = (uint8_t)(lowest[turn] + chance(range[turn]));
        if (chance(4) == 0) at[3] &= 0xF0;
    }
}

/* How many pixels have each origin. */
static unsigned long seen[VDP_ORIGIN_EXTERNAL + 1];

/* Every point, against lines that are drawn from a copy of the block, and against the rules. */
static void every_point(int m, int form, int turn)
{
    uint8_t block[VDP_BLOCK_SIZE], drawn[COLUMNS], from[COLUMNS];
    unsigned undrawn = 0, unruled = 0;
    char what[160];
    busy(m, form, turn);
    before = now;
    memcpy(block, now.block, sizeof block);
    for (unsigned line = 0; line < LINES; line++) {
        undrawn += vdp_draw_line(block, sizeof block, now.vram, VDP_VRAM_SIZE, drawn, sizeof drawn, from, sizeof from, line) != 0;
        for (unsigned x = 0; x < COLUMNS; x++) {
            uint32_t got = pixel(line, x);
            undrawn += got != PIXEL(drawn[x], from[x]);
            unruled += got != rule(line, x);
            if (from[x] <= VDP_ORIGIN_EXTERNAL) seen[from[x]]++;
        }
    }
    snprintf(what, sizeof what, "%s, size %d, magnify %d, turn %d: of 49,152 points %u are not the drawn line's, %u not by the rules", modes[m].name, form / 2, form % 2, turn, undrawn, unruled);
    check(undrawn == 0, what);
    check(unruled == 0, what);
    check(unchanged(), what);
    if (m < TEXT && turn == HEAP) check((block[13] & 0x60) == 0x60, "the heap moves status when it is drawn");
}

/* One point, while each byte of VRAM in turn is another, by flips from hex FF down: it changes only where it takes the
 * byte, and then as the rules say. */
static void each_byte(int m, int form, unsigned line, unsigned x, int step)
{
    static uint8_t may[VDP_VRAM_SIZE];
    unsigned foreign = 0, unruled = 0;
    uint32_t want;
    char what[160];
    memset(fetched, 0, sizeof fetched);
    want = rule(line, x);
    memcpy(may, fetched, sizeof may);
    for (size_t at = 0; at < VDP_VRAM_SIZE; at++)
        for (int flip = 255; flip > 0; flip -= step) {
            now.vram[at] ^= (uint8_t)flip;
            uint32_t got = pixel(line, x);
            foreign += got != want && !may[at];
            unruled += may[at] ? got != rule(line, x) : 0;
            now.vram[at] ^= (uint8_t)flip;
        }
    snprintf(what, sizeof what, "%s, size %d, magnify %d, line %u, column %u: %u bytes of no concern change the point, %u changes not by the rules", modes[m].name, form / 2, form % 2, line, x, foreign, unruled);
    check(pixel(line, x) == want && foreign == 0 && unruled == 0 && unchanged(), what);
}

/* What a point may take, counted: its cell has three bytes in Graphics I and II and two in Multicolor and Text. Here no
 * sprite is drawn, and the scan looks at the terminator alone. */
static void cell_alone(int m)
{
    static const int bytes[SHOWING] = { 4, 4, 3, 2 };
    int taken = 0;
    busy(m, 0, 0);
    now.block[2] = 0x0E, now.block[3] = 0x80, now.block[4] = 0x03, now.block[5] = 0x7F;
    PUT(0x3F80, 0xD0);
    before = now;
    each_byte(m, 0, 100, 100, 1);
    memset(fetched, 0, sizeof fetched);
    rule(100, 100);
    for (size_t at = 0; at < VDP_VRAM_SIZE; at++) taken += fetched[at];
    check(taken == bytes[m], "how many bytes a point takes");
}

static void each_byte_of(int m, int form)
{
    static const unsigned edges[] = { 0, 7, 8, 247, 248, 255 };
    busy(m, form, HEAP);
    before = now;
    for (size_t e = 0; e < sizeof edges / sizeof edges[0]; e++) each_byte(m, form, chance(LINES), edges[e], 127);
    each_byte(m, form, 0, chance(COLUMNS), 127);
    each_byte(m, form, LINES - 1, chance(COLUMNS), 127);
    for (int k = 0; k < 4; k++) {
        unsigned line = chance(60);
        each_byte(m, form, line, chance(COLUMNS), 127);
    }
}

int main(void)
{
    int unseen = 0;
    refusals("point", vdp_point, corner_colours);
    refusals("origin", vdp_origin, corner_origins);
    check(VDP_COLUMN_NUMBER == 13, "the number for a column in the header");
    status_stays();
    other_states();
    patterns();
    nothing_to_show();
    sprites();
    top_edge();
    for (int m = 0; m < MODES; m++)
        for (int form = 0; form < FORMS; form++)
            for (int turn = 0; turn < (m < SHOWING ? TURNS : 1); turn++) every_point(m, form, turn);
    for (int origin = 0; origin <= VDP_ORIGIN_EXTERNAL; origin++) unseen += seen[origin] == 0;
    check(unseen == 0, "every origin among the points");
    for (int m = 0; m < SHOWING; m++) {
        cell_alone(m);
        for (int form = 0; form < FORMS; form++) each_byte_of(m, form);
    }
    for (int m = SHOWING; m < MODES; m++) each_byte_of(m, 3);
    read_only();
    return finish("points");
}
