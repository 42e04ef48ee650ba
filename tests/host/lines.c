/* The call that draws a line, from C: each refusal number, the right one when two apply at once, nothing
 * changed after a refusal, a line of each mode, where its pixels come from, and the coincidence of two sprites at every
 * pair of places. */
#include "check.h"

enum { LINE = 256 };

/* What the call is lent, with room for one byte too many of the line and of its origins. */
struct drawn {
    struct lent lent;
    uint8_t line[LINE + 1];
    uint8_t origins[LINE + 1];
};

static struct drawn now, before;

static uint32_t draw(size_t block_len, size_t vram_len, size_t line_len, size_t origins_len, uint32_t number)
{
    return vdp_draw_line(now.lent.block, block_len, now.lent.vram, vram_len, now.line, line_len, now.origins, origins_len, number);
}

/* No colour and no origin: every byte has to be drawn. */
static void scribble(void)
{
    memset(now.line, 0xEE, sizeof now.line);
    memset(now.origins, 0xEE, sizeof now.origins);
}

static int ends_kept(void) { return now.line[LINE] == 0xEE && now.origins[LINE] == 0xEE; }

/* A state and a line that an accepted call changes, on every line number: Graphics I with size and magnify,
 * VRAM that differs from place to place, and status 0. A first byte waits, and others were lost. */
static void fill(void)
{
    static const uint8_t block[VDP_BLOCK_SIZE] = { 0x00, 0xE3, 0x05, 0x80, 0x01, 0x20, 0x03, 0xF1, 0x34, 0x12, 0x99, 1, 0xFF, 0x00, 1, 0x67, 0x2B };
    size_t i;
    for (i = 0; i < sizeof now.lent.vram; i++) now.lent.vram[i] = (uint8_t)(i * 7 + i / 256 + 1);
    for (i = 0; i < sizeof now.lent.map; i++) now.lent.map[i] = (uint8_t)(i % 3);
    memcpy(now.lent.block, block, sizeof block);
    now.lent.block[VDP_BLOCK_SIZE] = 0x77;
    scribble();
}

/* Of the line, and of the origins. */
static const size_t line_lens[] = { 256, 255, 257, 0 };
static const uint32_t numbers[] = { 191, 0, 192, 255, 256, 447, 0xFFFFFFFF };
enum { GOOD_NUMBERS = 2, NUMBERS = 7 };

/* Every combination of lengths, contents and line numbers: the first test that fails, in the order 1, 2, 3, 4,
 * decides. */
static void refusal(int v, int x, int o, int b, int way, int n)
{
    unsigned want = v ? VDP_VRAM_LENGTH : x || o || b ? VDP_SLICE_LENGTH : way ? VDP_ILL_FORMED : n >= GOOD_NUMBERS ? VDP_LINE_NUMBER : VDP_ACCEPTED;
    char what[160];
    fill();
    spoil(now.lent.block, way);
    before = now;
    uint32_t got = draw(block_lens[b], vram_lens[v], line_lens[x], line_lens[o], numbers[n]);
    snprintf(what, sizeof what, "draw_line: vram %zu, line %zu, origins %zu, block %zu, contents %d, number %u: answer %u, refusal %u wanted", vram_lens[v], line_lens[x], line_lens[o], block_lens[b], way, (unsigned)numbers[n], (unsigned)got, want);
    check(got == want * 256, what);
    if (want) {
        check(memcmp(&now, &before, sizeof now) == 0, what);
    } else {
        before.lent.block[13] = now.lent.block[13];
        check(memcmp(&now.lent, &before.lent, sizeof now.lent) == 0 && ends_kept(), what);
    }
}

static void refusals(void)
{
    for (int v = 0; v < 4; v++)
        for (int x = 0; x < 4; x++)
            for (int o = 0; o < 4; o++)
                for (int b = 0; b < BLOCK_LENS; b++)
                    for (int way = 0; way < WAYS; way++)
                        for (int n = 0; n < NUMBERS; n++) refusal(v, x, o, b, way, n);
}

/* A set-up on zero VRAM with nothing waiting, the redraw mark set and first bytes lost. */
static void set_up(const uint8_t registers[8], uint8_t status)
{
    memset(&now, 0, sizeof now);
    memcpy(now.lent.block, registers, 8);
    now.lent.block[13] = status;
    now.lent.block[14] = 1;
    put_lost(now.lent.block, 0xFFFE);
}

static void put(unsigned at, const uint8_t *bytes, size_t count)
{
    memcpy(now.lent.vram + at, bytes, count);
}
#define PUT(at, ...) put(at, (const uint8_t[]){ __VA_ARGS__ }, sizeof((const uint8_t[]){ __VA_ARGS__ }))

/* The line is these runs of count, colour and origin, the status is this, and nothing else has changed. */
static void shows(const char *what, uint32_t number, uint8_t status, const int runs[][3], int count)
{
    int x = 0, colours = 0, origins = 0;
    scribble();
    before = now;
    check(draw(VDP_BLOCK_SIZE, 16384, 256, 256, number) == 0, what);
    for (int r = 0; r < count; r++)
        for (int k = 0; k < runs[r][0]; k++, x++) {
            colours += x < LINE && now.line[x] == runs[r][1];
            origins += x < LINE && now.origins[x] == runs[r][2];
        }
    check(x == LINE && colours == LINE, what);
    check(x == LINE && origins == LINE, what);
    check(ends_kept(), what);
    before.lent.block[13] = status;
    check(memcmp(&now.lent, &before.lent, sizeof now.lent) == 0, what);
}
#define SHOWS(what, number, status, ...) \
    shows(what, number, status, (const int[][3]){ __VA_ARGS__ }, (int)(sizeof((const int[][3]){ __VA_ARGS__ }) / sizeof(int[3])))

/* The worked set-ups of the manual and of the guide, and a line of each mode. */
static void accepted(void)
{
    static const uint8_t graphics_i[8] = { 0x00, 0xC0, 0x05, 0x80, 0x01, 0x20, 0x00, 0x01 };
    static const uint8_t graphics_ii[8] = { 0x02, 0xC2, 0x0E, 0xFF, 0x03, 0x76, 0x03, 0x0F };
    static const uint8_t multicolor[8] = { 0x00, 0xCB, 0x05, 0x00, 0x01, 0x20, 0x00, 0x04 };
    static const uint8_t text[8] = { 0x00, 0xD0, 0x02, 0x00, 0x00, 0x20, 0x00, 0x71 };
    static const uint8_t off[8] = { 0x00, 0x80, 0x05, 0x80, 0x01, 0x20, 0x00, 0x06 };
    static const uint8_t two_bits[8] = { 0x02, 0xD0, 0x05, 0x80, 0x01, 0x20, 0x00, 0x00 };

    set_up(graphics_i, 0x00);
    SHOWS("Graphics I over zero VRAM: the fifth sprite", 1, 0x44, { 256, 1, 33 });
    SHOWS("its number stays while 5S is set", 1, 0x44, { 256, 1, 33 });
    set_up(graphics_i, 0x80);
    SHOWS("Graphics I while F is set", 1, 0x80, { 256, 1, 33 });
    set_up(graphics_i, 0x00);
    PUT(0x1400, 0, 1, 8);
    PUT(0x0808, 0xA5);
    PUT(0x2000, 0x62, 0x73);
    PUT(0x0000, 0xC3);
    PUT(0x1000, 0xFF, 100, 0, 8, 0xD0);
    SHOWS("Graphics I: a pattern and a sprite", 0, 0x00, { 8, 2, 32 }, { 1, 6, 32 }, { 1, 2, 32 }, { 1, 6, 32 }, { 2, 2, 32 }, { 1, 6, 32 }, { 1, 2, 32 }, { 1, 6, 32 }, { 8, 3, 32 }, { 76, 2, 32 }, { 2, 8, 0 }, { 4, 2, 32 }, { 2, 8, 0 }, { 148, 2, 32 });

    set_up(graphics_ii, 0x00);
    memset(now.lent.vram + 0x2000, 0x4F, 0x1800);
    for (int i = 0; i < 768; i++) now.lent.vram[0x3800 + i] = (uint8_t)i;
    PUT(0x3B00, 0xD0);
    PUT(0x17FF, 0x01);
    SHOWS("Graphics II: the bottom right pixel", 191, 0x00, { 255, 15, 32 }, { 1, 4, 32 });

    set_up(multicolor, 0x00);
    memset(now.lent.vram + 0x1400, 0x40, 768);
    PUT(0x1400, 2);
    PUT(0x0810, 0x64, 0x46);
    PUT(0x1000, 0xD0);
    SHOWS("Multicolor: the first byte", 3, 0x00, { 4, 6, 32 }, { 4, 4, 32 }, { 248, 4, 33 });
    SHOWS("Multicolor: the second byte", 4, 0x00, { 4, 4, 32 }, { 4, 6, 32 }, { 248, 4, 33 });

    set_up(text, 0x45);
    PUT(0x0800, 1);
    PUT(0x0008, 0x7C, 0x04, 0x04, 0x3C, 0x04, 0x04, 0x7C, 0x00);
    SHOWS("Text: a letter", 0, 0x45, { 8, 1, 33 }, { 1, 1, 32 }, { 5, 7, 32 }, { 234, 1, 32 }, { 8, 1, 33 });
    SHOWS("Text: the letter's row 3", 3, 0x45, { 8, 1, 33 }, { 2, 1, 32 }, { 4, 7, 32 }, { 234, 1, 32 }, { 8, 1, 33 });

    set_up(off, 0x1F);
    SHOWS("display off", 100, 0x1F, { 256, 6, 33 });
    set_up(two_bits, 0x00);
    SHOWS("two mode bits", 1, 0x00, { 256, 1, 34 });
}

/* Pixels of the backdrop's colour that are the pattern plane's, and transparent ones: over backdrop 6, over none, and over
 * external video. */
static void origins_of_patterns(void)
{
    static const uint8_t graphics_i[8] = { 0x00, 0xC0, 0x05, 0x80, 0x01, 0x20, 0x00, 0x06 };
    static const uint8_t graphics_ii[8] = { 0x02, 0xC0, 0x0E, 0xFF, 0x03, 0x76, 0x03, 0x06 };
    static const uint8_t multicolor[8] = { 0x00, 0xC8, 0x05, 0x00, 0x01, 0x20, 0x00, 0x06 };
    static const uint8_t text[8] = { 0x00, 0xD0, 0x02, 0x00, 0x00, 0x20, 0x00, 0x66 };

    set_up(graphics_i, 0x00);
    PUT(0x1000, 0xD0);
    memset(now.lent.vram + 0x1400, 24, 768);
    PUT(0x1400, 0, 8, 16);
    PUT(0x0800, 0xF0), PUT(0x0840, 0xF0), PUT(0x0880, 0xF0);
    PUT(0x2000, 0x60, 0x06, 0xB6, 0x00);
    SHOWS("Graphics I", 0, 0x00, { 4, 6, 32 }, { 8, 6, 33 }, { 4, 6, 32 }, { 4, 11, 32 }, { 4, 6, 32 }, { 232, 6, 33 });
    now.lent.block[7] = 0xF0;
    SHOWS("Graphics I: no backdrop", 0, 0x00, { 4, 6, 32 }, { 8, 1, 34 }, { 4, 6, 32 }, { 4, 11, 32 }, { 4, 6, 32 }, { 232, 1, 34 });
    now.lent.block[0] = 0x01;
    SHOWS("Graphics I: external video", 0, 0x00, { 4, 6, 32 }, { 8, 0, 35 }, { 4, 6, 32 }, { 4, 11, 32 }, { 4, 6, 32 }, { 232, 0, 35 });
    now.lent.block[7] = 0x06;
    SHOWS("Graphics I: a backdrop, external video on", 0, 0x00, { 4, 6, 32 }, { 8, 6, 33 }, { 4, 6, 32 }, { 4, 11, 32 }, { 4, 6, 32 }, { 232, 6, 33 });

    set_up(graphics_ii, 0x00);
    PUT(0x3B00, 0xD0);
    PUT(0x3900, 5, 7);
    PUT(0x082B, 0x0F), PUT(0x282B, 0x60);
    PUT(0x083B, 0x0F), PUT(0x283B, 0x06);
    PUT(0x2803, 0x33);
    SHOWS("Graphics II", 67, 0x00, { 4, 6, 33 }, { 8, 6, 32 }, { 4, 6, 33 }, { 240, 3, 32 });
    SHOWS("Graphics II: the line above", 66, 0x00, { 256, 6, 33 });
    now.lent.block[7] = 0x60;
    SHOWS("Graphics II: no backdrop", 67, 0x00, { 4, 1, 34 }, { 8, 6, 32 }, { 4, 1, 34 }, { 240, 3, 32 });
    now.lent.block[0] = 0x03;
    SHOWS("Graphics II: external video", 67, 0x00, { 4, 0, 35 }, { 8, 6, 32 }, { 4, 0, 35 }, { 240, 3, 32 });

    set_up(multicolor, 0x00);
    PUT(0x1000, 0xD0);
    PUT(0x16E0, 9, 10);
    PUT(0x084F, 0x60), PUT(0x0857, 0x06);
    SHOWS("Multicolor", 191, 0x00, { 4, 6, 32 }, { 8, 6, 33 }, { 4, 6, 32 }, { 240, 6, 33 });
    now.lent.block[7] = 0x60;
    SHOWS("Multicolor: no backdrop", 191, 0x00, { 4, 6, 32 }, { 8, 1, 34 }, { 4, 6, 32 }, { 240, 1, 34 });
    now.lent.block[0] = 0x01;
    SHOWS("Multicolor: external video", 191, 0x00, { 4, 6, 32 }, { 8, 0, 35 }, { 4, 6, 32 }, { 240, 0, 35 });

    /* A 0 bit of Text has the backdrop's colour and is the pattern plane's all the same. Its sprites do not show. */
    set_up(text, 0x00);
    PUT(0x1000, 255, 0, 1, 9, 255, 100, 1, 9, 255, 248, 1, 9, 0xD0);
    PUT(0x0800, 1), PUT(0x0827, 1);
    PUT(0x0008, 0xE3);
    SHOWS("Text: both colours the backdrop's", 0, 0x00, { 8, 6, 33 }, { 240, 6, 32 }, { 8, 6, 33 });
    now.lent.block[7] = 0x06;
    SHOWS("Text: 1 bits transparent", 0, 0x00, { 11, 6, 33 }, { 231, 6, 32 }, { 3, 6, 33 }, { 3, 6, 32 }, { 8, 6, 33 });
    now.lent.block[7] = 0x60;
    SHOWS("Text: no backdrop", 0, 0x00, { 8, 1, 34 }, { 3, 6, 32 }, { 231, 1, 34 }, { 3, 6, 32 }, { 11, 1, 34 });
    now.lent.block[0] = 0x01;
    SHOWS("Text: external video", 0, 0x00, { 8, 0, 35 }, { 3, 6, 32 }, { 231, 0, 35 }, { 3, 6, 32 }, { 11, 0, 35 });
    now.lent.block[7] = 0x00;
    SHOWS("Text: no colour, external video", 0, 0x00, { 256, 0, 35 });
    now.lent.block[0] = 0x00;
    SHOWS("Text: no colour", 0, 0x00, { 256, 1, 34 });
}

/* Lines without a plane, over tables that would show. */
static void origins_of_blank_lines(void)
{
    static const uint8_t modes[][2] = { { 0x00, 0x80 }, { 0x02, 0x90 }, { 0x00, 0xD8 }, { 0x02, 0xD0 }, { 0x02, 0xC8 }, { 0x02, 0xD8 } };
    for (size_t m = 0; m < sizeof modes / sizeof modes[0]; m++) {
        const uint8_t registers[8] = { modes[m][0], modes[m][1], 0x05, 0x80, 0x01, 0x20, 0x00, 0xF6 };
        set_up(registers, 0x1F);
        memset(now.lent.vram, 0x5A, VDP_VRAM_SIZE);
        SHOWS("a blank line: backdrop", 0, 0x1F, { 256, 6, 33 });
        now.lent.block[7] = 0xF0;
        SHOWS("a blank line: no backdrop", 100, 0x1F, { 256, 1, 34 });
        now.lent.block[0] |= 0x01;
        SHOWS("a blank line: external video", 191, 0x1F, { 256, 0, 35 });
        now.lent.block[7] = 0xF6;
        SHOWS("a blank line: a backdrop, external video on", 91, 0x1F, { 256, 6, 33 });
    }
}

/* Over backdrop 4, all 32 sprites below line 50. Of their shape only the left half of the top row has bits. */
static void sprites_below(void)
{
    static const uint8_t registers[8] = { 0x00, 0xC0, 0x05, 0x80, 0x01, 0x20, 0x00, 0x04 };
    set_up(registers, 0x00);
    PUT(0x0000, 0xF0);
    for (unsigned n = 0; n < 32; n++) PUT(0x1000 + 4 * n, 100, 10, 0, 9);
}
#define SPRITE(n, ...) PUT(0x1000 + 4 * (n), __VA_ARGS__)

/* A sprite's number is its place in the table, not among those on the line. */
static void origins_of_sprites(void)
{
    sprites_below();
    SPRITE(3, 49, 10, 0, 5);
    SPRITE(17, 49, 20, 0, 6);
    SHOWS("sprites 3 and 17", 50, 0x00, { 10, 4, 33 }, { 4, 5, 3 }, { 6, 4, 33 }, { 4, 6, 17 }, { 232, 4, 33 });
    SPRITE(17, 49, 12, 0, 6);
    SHOWS("sprite 3 over the left of 17", 50, 0x20, { 10, 4, 33 }, { 4, 5, 3 }, { 2, 6, 17 }, { 240, 4, 33 });
    SPRITE(17, 49, 8, 0, 6);
    SHOWS("sprite 3 over the right of 17", 50, 0x20, { 8, 4, 33 }, { 2, 6, 17 }, { 4, 5, 3 }, { 242, 4, 33 });
    SPRITE(17, 49, 8, 0, 5);
    SHOWS("two of one colour", 50, 0x20, { 8, 4, 33 }, { 2, 5, 17 }, { 4, 5, 3 }, { 242, 4, 33 });
    SPRITE(17, 49, 8, 0, 4);
    SHOWS("one of the backdrop's colour", 50, 0x20, { 8, 4, 33 }, { 2, 4, 17 }, { 4, 5, 3 }, { 242, 4, 33 });
    SPRITE(3, 49, 10, 0, 0);
    SHOWS("one of colour 0 over a coloured one", 50, 0x20, { 8, 4, 33 }, { 4, 4, 17 }, { 244, 4, 33 });
    SPRITE(17, 49, 8, 0, 0x70);
    SHOWS("two of colour 0", 50, 0x20, { 256, 4, 33 });

    /* Name 1 at columns 8 to 15. */
    PUT(0x14C1, 1);
    PUT(0x080A, 0x0F);
    PUT(0x2000, 0x70);
    SHOWS("colour 0 over a pattern", 50, 0x20, { 12, 4, 33 }, { 4, 7, 32 }, { 240, 4, 33 });
    SPRITE(17, 49, 14, 0, 7);
    SHOWS("the pattern's colour", 50, 0x20, { 12, 4, 33 }, { 2, 7, 32 }, { 4, 7, 17 }, { 238, 4, 33 });
    now.lent.block[1] = 0xC8;
    PUT(0x080C, 0x7B);
    SHOWS("Multicolor", 50, 0x20, { 8, 4, 33 }, { 4, 7, 32 }, { 2, 11, 32 }, { 4, 7, 17 }, { 238, 4, 33 });
    now.lent.block[0] = 0x02, now.lent.block[1] = 0xC0;
    PUT(0x000A, 0x3F), PUT(0x200A, 0xA0);
    SHOWS("Graphics II", 50, 0x20, { 10, 4, 33 }, { 4, 10, 32 }, { 4, 7, 17 }, { 238, 4, 33 });

    sprites_below();
    SPRITE(2, 49, 10, 0, 5);
    SPRITE(5, 49, 20, 0, 6);
    SPRITE(11, 49, 30, 0, 7);
    SPRITE(17, 49, 40, 0, 8);
    SPRITE(30, 49, 50, 0, 10);
    SHOWS("a fifth", 50, 0x5E, { 10, 4, 33 }, { 4, 5, 2 }, { 6, 4, 33 }, { 4, 6, 5 }, { 6, 4, 33 }, { 4, 7, 11 }, { 6, 4, 33 }, { 4, 8, 17 }, { 212, 4, 33 });
    SPRITE(5, 49, 20, 0, 0);
    SHOWS("a fifth, one of the four of colour 0", 50, 0x5E, { 10, 4, 33 }, { 4, 5, 2 }, { 16, 4, 33 }, { 4, 7, 11 }, { 6, 4, 33 }, { 4, 8, 17 }, { 212, 4, 33 });
    SPRITE(9, 208);
    SHOWS("the terminator between them", 50, 0x5E, { 10, 4, 33 }, { 4, 5, 2 }, { 242, 4, 33 });

    sprites_below();
    SPRITE(0, 49, 30, 0, 0x86);
    SPRITE(31, 49, 255, 0, 5);
    SHOWS("the first and the last, over the edges", 50, 0x00, { 2, 6, 0 }, { 253, 4, 33 }, { 1, 5, 31 });

    sprites_below();
    PUT(0x0005, 0xC1);
    SPRITE(9, 250, 100, 0, 5);
    SHOWS("over the top edge", 0, 0x00, { 100, 4, 33 }, { 2, 5, 9 }, { 5, 4, 33 }, { 1, 5, 9 }, { 148, 4, 33 });
    SHOWS("a row without bits", 1, 0x00, { 256, 4, 33 });

    sprites_below();
    now.lent.block[1] = 0xC3;
    PUT(0x0024, 0x80), PUT(0x0034, 0x01);
    SPRITE(29, 40, 60, 7, 12);
    SHOWS("size and magnify", 50, 0x00, { 60, 4, 33 }, { 2, 12, 29 }, { 28, 4, 33 }, { 2, 12, 29 }, { 164, 4, 33 });
}

/* One row of two sprites: without size the left bytes alone. */
static const uint8_t left[2] = { 0x85, 0x90 }, right[2] = { 0x21, 0x09 };

/* Where sprite n has set bits when it begins at column first: a mark for each of the columns -32 to 286. */
static void columns(uint8_t *marks, int n, int first, int size, int magnify)
{
    int wide = magnify ? 2 : 1;
    memset(marks, 0, 319);
    for (int k = 0; k < (size ? 16 : 8) * wide; k++)
        marks[first + 32 + k] = (uint8_t)((left[n] * 256 + right[n]) >> (15 - k / wide) & 1);
}

/* X from 0 to 255, and then once more with early clock. */
static int first_of(int place) { return place % 256 - (place < 256 ? 0 : 32); }

static void put_sprite(int n, int place, uint8_t colour)
{
    uint8_t *at = now.lent.vram + 0x1000 + 4 * n;
    at[0] = 49;
    at[1] = (uint8_t)place;
    at[2] = (uint8_t)(4 * n);
    at[3] = (uint8_t)(colour + (place < 256 ? 0 : 0x80));
}

/* One sprite, of colour 0, at a place, and a second at every place: C exactly when set bits share a column, on the
 * screen or beside it. */
static void coincidences_of(int place, int size, int magnify)
{
    uint8_t one[319], other[319];
    char what[120];
    int correct = 0;
    columns(one, 0, first_of(place), size, magnify);
    put_sprite(0, place, 0);
    for (int second = 0; second < 512; second++) {
        int meet = 0;
        columns(other, 1, first_of(second), size, magnify);
        for (int c = 0; c < 319; c++) meet |= one[c] & other[c];
        put_sprite(1, second, 15);
        now.lent.block[13] = 0;
        correct += draw(VDP_BLOCK_SIZE, VDP_VRAM_SIZE, LINE, LINE, 50) == 0 && now.lent.block[13] == (meet ? 0x20 : 0);
    }
    snprintf(what, sizeof what, "coincidence: size %d, magnify %d, a sprite at column %d: %d of 512 right", size, magnify, first_of(place), correct);
    check(correct == 512, what);
}

static void coincidences(void)
{
    for (int way = 0; way < 4; way++) {
        uint8_t registers[8] = { 0x00, (uint8_t)(0xC0 + way), 0x05, 0x80, 0x01, 0x20, 0x00, 0x01 };
        set_up(registers, 0x00);
        for (int n = 0; n < 2; n++) {
            now.lent.vram[32 * n] = left[n];
            now.lent.vram[32 * n + 16] = right[n];
        }
        PUT(0x1008, 0xD0);
        for (int place = 0; place < 512; place++) coincidences_of(place, way / 2, way % 2);
    }
}

int main(void)
{
    check(VDP_ORIGIN_PATTERN == 32 && VDP_ORIGIN_BACKDROP == 33 && VDP_ORIGIN_BLACK == 34 && VDP_ORIGIN_EXTERNAL == 35, "the origins in the header");
    refusals();
    accepted();
    origins_of_patterns();
    origins_of_blank_lines();
    origins_of_sprites();
    coincidences();
    return finish("lines");
}
