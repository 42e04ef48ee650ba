/* The snapshot calls from C: known bytes, what a snapshot does not have of the state (the redraw mark and the count of lost
 * first bytes), each refusal number, the right one when two apply at once, and nothing changed after a refusal. */
#include "check.h"

enum { KEPT = 14, STATE = 16384, TRAILER = 16398, SUM = 16404, FOREIGN = 0xEE };

/* What the calls are lent, with room for one byte too many. */
struct lent_snapshot {
    struct lent lent;
    uint8_t snapshot[VDP_SNAPSHOT_SIZE + 1];
};

static struct lent_snapshot now, before;

static const uint8_t state[VDP_BLOCK_SIZE] = { 0x02, 0xE3, 0x05, 0x80, 0x01, 0x20, 0x03, 0xF1, 0x34, 0x12, 0x99, 1, 0x55, 0xDF, 0, 0x67, 0x2B };

static void fill(void)
{
    for (size_t i = 0; i < sizeof now.lent.vram; i++) now.lent.vram[i] = (uint8_t)(i * 7 + i / 256 + 1);
    for (size_t i = 0; i < sizeof now.lent.map; i++) now.lent.map[i] = (uint8_t)(i % 3);
    memcpy(now.lent.block, state, sizeof state);
    now.lent.block[VDP_BLOCK_SIZE] = 0x77;
    memset(now.snapshot, FOREIGN, sizeof now.snapshot);
}

static void put_sum(uint8_t *snapshot)
{
    uint32_t sum = 0;
    for (int i = 0; i < SUM; i++) sum += snapshot[i];
    snapshot[SUM] = (uint8_t)sum;
    snapshot[SUM + 1] = (uint8_t)(sum >> 8);
}

static void put_snapshot(struct lent_snapshot *s)
{
    static const uint8_t trailer[] = { 0x56, 0x31, 0x0E, 0x00, 0x0E, 0x40 };
    memcpy(s->snapshot, s->lent.vram, STATE);
    memcpy(s->snapshot + STATE, s->lent.block, KEPT);
    memcpy(s->snapshot + TRAILER, trailer, sizeof trailer);
    put_sum(s->snapshot);
}

static uint32_t read_snapshot(size_t block_len, size_t vram_len, size_t snapshot_len)
{
    return vdp_read_snapshot(now.lent.block, block_len, now.lent.vram, vram_len, now.snapshot, snapshot_len);
}

static uint32_t write_snapshot(size_t block_len, size_t vram_len, size_t snapshot_len)
{
    return vdp_write_snapshot(now.lent.block, block_len, now.lent.vram, vram_len, now.snapshot, snapshot_len);
}

static const unsigned counts[] = { 0, 1, 255, 256, 0x2B67, 65534, 65535 };
enum { COUNTS = sizeof counts / sizeof counts[0] };

/* States that differ in redraw mark and count alone have one snapshot, and writing it leaves both. */
static void writing(void)
{
    static const uint8_t at_power_up[] = { 0x56, 0x31, 0x0E, 0x00, 0x0E, 0x40, 0xE3, 0x00 };
    for (uint8_t mark = 0; mark < 2; mark++)
        for (int c = 0; c < COUNTS; c++) {
            char what[64];
            snprintf(what, sizeof what, "writing: redraw mark %d, %u first bytes lost", mark, counts[c]);
            fill();
            before = now;
            put_snapshot(&before);
            now.lent.block[14] = before.lent.block[14] = mark;
            put_lost(now.lent.block, counts[c]);
            put_lost(before.lent.block, counts[c]);
            check(write_snapshot(VDP_BLOCK_SIZE, 16384, 16406) == 0, what);
            check(memcmp(&now, &before, sizeof now) == 0, what);
        }
    vdp_power_up(now.lent.block, VDP_BLOCK_SIZE, now.lent.vram, 16384);
    check(write_snapshot(VDP_BLOCK_SIZE, 16384, 16406) == 0 && memcmp(now.snapshot + TRAILER, at_power_up, sizeof at_power_up) == 0, "the trailer at power-up");
}

/* What is read over this block: the count is 0 whatever it was, also over bytes that are no state. */
static void read_over(const char *what, const uint8_t *block)
{
    fill();
    put_snapshot(&now);
    before = now;
    before.lent.block[14] = 1;
    put_lost(before.lent.block, 0);
    memcpy(now.lent.block, block, VDP_BLOCK_SIZE);
    memset(now.lent.vram, FOREIGN, STATE);
    check(read_snapshot(VDP_BLOCK_SIZE, 16384, 16406) == 0, what);
    check(memcmp(&now, &before, sizeof now) == 0, what);
}

static void reading(void)
{
    uint8_t block[VDP_BLOCK_SIZE];
    char what[64];
    for (int c = 0; c < COUNTS; c++) {
        snprintf(what, sizeof what, "reading: %u first bytes lost before", counts[c]);
        memcpy(block, state, sizeof block);
        put_lost(block, counts[c]);
        read_over(what, block);
    }
    for (int byte = 0; byte < 256; byte += 17) {
        snprintf(what, sizeof what, "reading over bytes of %02X", (unsigned)byte);
        memset(block, byte, sizeof block);
        read_over(what, block);
    }
    /* The first byte that waits in the snapshot is the next one that can be lost. */
    check(now.lent.block[11] == 1 && vdp_status_read(now.lent.block, VDP_BLOCK_SIZE) == 0xDF && VDP_LOST(now.lent.block) == 1, "a first byte from a snapshot, lost");
    memset(now.snapshot, FOREIGN, VDP_SNAPSHOT_SIZE);
    check(write_snapshot(VDP_BLOCK_SIZE, 16384, 16406) == 0 && read_snapshot(VDP_BLOCK_SIZE, 16384, 16406) == 0, "there and back");
    check(VDP_LOST(now.lent.block) == 0 && now.lent.block[14] == 1 && now.lent.block[11] == 0 && now.lent.block[13] == 0x1F, "there and back: the count is 0");
}

static const size_t snapshot_lens[] = { 16406, 16405, 16407, 0 };
enum { TRAILERS = 7, SUMS = 3, MARK = 4 };

/* One combination of lengths and contents: the first test that fails, in the order 1, 2, 5, 6, 7, 3, decides. */
static void read_refusal(int v, int b, int s, int trailer, int sum, int way)
{
    unsigned want = v ? VDP_VRAM_LENGTH : b ? VDP_SLICE_LENGTH : s ? VDP_SNAPSHOT_LENGTH : trailer ? VDP_TRAILER : sum ? VDP_CHECKSUM : way ? VDP_ILL_FORMED : VDP_ACCEPTED;
    char what[160];
    now = before;
    spoil(now.snapshot + STATE, way);
    if (trailer) now.snapshot[TRAILER + trailer - 1] ^= 0x01;
    put_sum(now.snapshot);
    if (sum) now.snapshot[SUM + sum - 1] ^= 0x80;
    static struct lent_snapshot lent;
    lent = now;
    uint32_t got = read_snapshot(block_lens[b], vram_lens[v], snapshot_lens[s]);
    snprintf(what, sizeof what, "read_snapshot: vram %zu, block %zu, snapshot %zu, trailer %d, sum %d, contents %d: answer %u, refusal %u wanted", vram_lens[v], block_lens[b], snapshot_lens[s], trailer, sum, way, (unsigned)got, want);
    check(got == want * 256, what);
    if (want) check(memcmp(&now, &lent, sizeof now) == 0, what);
}

static void write_refusal(int v, int b, int s, int way)
{
    unsigned want = v ? VDP_VRAM_LENGTH : b ? VDP_SLICE_LENGTH : s ? VDP_SNAPSHOT_LENGTH : way ? VDP_ILL_FORMED : VDP_ACCEPTED;
    char what[160];
    fill();
    spoil(now.lent.block, way);
    before = now;
    uint32_t got = write_snapshot(block_lens[b], vram_lens[v], snapshot_lens[s]);
    snprintf(what, sizeof what, "write_snapshot: vram %zu, block %zu, snapshot %zu, contents %d: answer %u, refusal %u wanted", vram_lens[v], block_lens[b], snapshot_lens[s], way, (unsigned)got, want);
    check(got == want * 256, what);
    if (want) check(memcmp(&now, &before, sizeof now) == 0, what);
}

static void refusals(void)
{
    for (int v = 0; v < 4; v++)
        for (int b = 0; b < BLOCK_LENS; b++)
            for (int s = 0; s < 4; s++)
                for (int way = 0; way < WAYS; way++) write_refusal(v, b, s, way);
    /* A snapshot has no redraw mark that could be wrong. */
    fill();
    put_snapshot(&now);
    memset(now.lent.vram, FOREIGN, STATE);
    before = now;
    for (int v = 0; v < 4; v++)
        for (int b = 0; b < BLOCK_LENS; b++)
            for (int s = 0; s < 4; s++)
                for (int trailer = 0; trailer < TRAILERS; trailer++)
                    for (int sum = 0; sum < SUMS; sum++)
                        for (int way = 0; way < WAYS; way++)
                            if (way != MARK) read_refusal(v, b, s, trailer, sum, way);
}

int main(void)
{
    writing();
    reading();
    refusals();
    return finish("snapshots");
}
