/* What the host tests share: a count of checks, and lent buffers that are compared after each call. */
#ifndef CHECK_H
#define CHECK_H

#include <stdio.h>
#include <string.h>

#include "birdcleft.h"

static int passed, failed;

static void check(int holds, const char *what)
{
    if (holds) {
        passed++;
    } else {
        failed++;
        printf("FAILED: %s\n", what);
    }
}

/* Everything that a call can be lent, with room for one byte too many. */
struct lent {
    uint8_t block[VDP_BLOCK_SIZE + 1];
    uint8_t vram[VDP_VRAM_SIZE + 1];
    uint8_t map[VDP_MAP_SIZE + 1];
};

/* Lengths of what is lent, the right one first. A block had 15 bytes before it had the count of lost first bytes. */
static const size_t block_lens[] = { 17, 16, 18, 0, 15 };
static const size_t vram_lens[] = { 16384, 16383, 16385, 0 };
static const size_t map_lens[] = { 2048, 2047, 2049, 0 };
enum { BLOCK_LENS = sizeof block_lens / sizeof block_lens[0] };

/* The count of lost first bytes stands behind the redraw mark, low byte first. */
static void put_lost(uint8_t *block, unsigned count)
{
    block[15] = (uint8_t)(count % 256);
    block[16] = (uint8_t)(count / 256);
}

/* The ways in which the contents of a block can be wrong; the first leaves them right. */
enum { WAYS = 11 };
static void spoil(uint8_t *block, int way)
{
    static const int masked[] = { 0, 1, 2, 4, 5, 6 };
    static const uint8_t outside[] = { 0x04, 0x04, 0x10, 0x08, 0x80, 0x08 };
    switch (way) {
    case 0: break;
    case 1: block[9] = 0x40; break;                      /* an address of 16,384 or more */
    case 2: block[11] = 2; break;                        /* a waiting flag that is not 0 or 1 */
    case 3: block[11] = 0; break;                        /* a first byte while none waits */
    case 4: block[14] = 2; break;                        /* a redraw mark that is not 0 or 1 */
    default: block[masked[way - 5]] |= outside[way - 5]; /* a register outside its mask */
    }
}

static int finish(const char *name)
{
    printf("%s: %d passed, %d failed\n", name, passed, failed);
    return failed != 0;
}

#endif
