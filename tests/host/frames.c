/* Full draw and refresh from C: which lines a refresh redraws, that it leaves what a full draw would, each refusal
 * number, the right one when two apply at once, and nothing changed after a refusal. */
#include "check.h"

enum { LINE = 256, LINES = 192, FOREIGN = 0xEE };

/* What the calls are lent, with room for one byte too many. */
struct drawn {
    struct lent lent;
    uint8_t frame[VDP_FRAME_SIZE + 1];
    uint8_t notes[VDP_NOTES_SIZE + 1];
};

static struct drawn now, before, full, other;

typedef uint32_t call(uint8_t *, size_t, const uint8_t *, size_t, uint8_t *, size_t, uint8_t *, size_t, uint8_t *, size_t);

static uint32_t draw(call *call, struct drawn *d)
{
    return call(d->lent.block, VDP_BLOCK_SIZE, d->lent.vram, 16384, d->lent.map, 2048, d->frame, 49152, d->notes, 192);
}

static uint32_t control(uint8_t byte) { return vdp_control_write(now.lent.block, VDP_BLOCK_SIZE, now.lent.vram, 16384, byte); }
static uint32_t write_data(uint8_t byte) { return vdp_data_write(now.lent.block, VDP_BLOCK_SIZE, now.lent.vram, 16384, now.lent.map, 2048, byte); }
static uint32_t write_register(unsigned number, uint8_t byte) { return control(byte) | control((uint8_t)(0x80 + number)); }
static uint32_t write_at(unsigned address, uint8_t byte) { return control((uint8_t)address) | control((uint8_t)(0x40 + address / 256 % 64)) | write_data(byte); }

static int all(const uint8_t *bytes, size_t count, uint8_t byte)
{
    while (count > 0 && *bytes == byte) bytes++, count--;
    return count == 0;
}

static int map_clear(const struct drawn *d) { return all(d->lent.map, VDP_MAP_SIZE, 0); }

/* The count of lost first bytes, the bytes past each slice, and VRAM, are those that were lent. */
static int rest_kept(const struct drawn *d)
{
    return VDP_LOST(d->lent.block) == VDP_LOST(before.lent.block) && d->lent.block[VDP_BLOCK_SIZE] == before.lent.block[VDP_BLOCK_SIZE] && memcmp(d->lent.vram, before.lent.vram, sizeof d->lent.vram) == 0 && d->lent.map[2048] == before.lent.map[2048] && d->frame[49152] == before.frame[49152] && d->notes[192] == before.notes[192];
}

static int same_line(const struct drawn *a, const struct drawn *b, int l)
{
    return memcmp(a->frame + LINE * l, b->frame + LINE * l, LINE) == 0 && a->notes[l] == b->notes[l];
}

static void scribble(struct drawn *d)
{
    memset(d->frame, FOREIGN, VDP_FRAME_SIZE);
    memset(d->notes, FOREIGN, VDP_NOTES_SIZE);
}

/* A full draw from 'before' into 'full' is what the 192 lines are that are drawn one by one. Where a line starts
 * with status 0, what it leaves there is its note. */
static void fully_drawn(const char *what)
{
    uint8_t line[LINE], origins[LINE], block[VDP_BLOCK_SIZE], alone[VDP_BLOCK_SIZE];
    int lines = 1, notes = 1;
    full = before;
    scribble(&full);
    check(draw(vdp_full_draw, &full) == 0, what);
    memcpy(block, before.lent.block, VDP_BLOCK_SIZE);
    for (uint32_t l = 0; l < LINES; l++) {
        lines = lines && vdp_draw_line(block, VDP_BLOCK_SIZE, before.lent.vram, 16384, line, LINE, origins, LINE, l) == 0 && memcmp(line, full.frame + LINE * l, LINE) == 0;
        memcpy(alone, block, VDP_BLOCK_SIZE);
        alone[13] = 0;
        vdp_draw_line(alone, VDP_BLOCK_SIZE, before.lent.vram, 16384, line, LINE, origins, LINE, l);
        notes = notes && full.notes[l] == (alone[13] & 0x40 ? alone[13] & 0x1F : 32) + (alone[13] & 0x20 ? 64 : 0);
    }
    block[14] = 0;
    check(lines && notes, what);
    check(memcmp(block, full.lent.block, VDP_BLOCK_SIZE) == 0 && map_clear(&full) && rest_kept(&full), what);
}

/* Status after all notes, in order. A note may be any byte: below 32 modulo 64 it is the number of a fifth sprite. */
static uint8_t after_notes(uint8_t status, const uint8_t *notes)
{
    for (int l = 0; l < LINES; l++) {
        if (notes[l] % 64 < 32 && (status & 0xC0) == 0) status = (uint8_t)((status & 0x20) + 0x40 + notes[l] % 64);
        if (notes[l] / 64 % 2 == 1) status |= 0x20;
    }
    return status;
}

/* A refresh of 'now' redraws this many lines (-1: any number), and leaves what a full draw leaves. Over a foreign
 * frame it redraws as many: every line that has changed, and no other line or note than those that it counts. */
static int refreshed(const char *what, int want)
{
    char told[160];
    int drawn = 0, kept = 1;
    before = now;
    fully_drawn(what);
    uint32_t got = draw(vdp_refresh, &now);
    snprintf(told, sizeof told, "%s: answer %u, %d lines wanted", what, (unsigned)got, want);
    check(got <= LINES && (want < 0 || got == (uint32_t)want), told);
    check(memcmp(now.frame, full.frame, VDP_FRAME_SIZE) == 0 && memcmp(now.notes, full.notes, VDP_NOTES_SIZE) == 0, told);
    check(memcmp(now.lent.block, full.lent.block, VDP_BLOCK_SIZE) == 0 && map_clear(&now) && rest_kept(&now), told);

    other = before;
    scribble(&other);
    check(draw(vdp_refresh, &other) == got, told);
    for (int l = 0; l < LINES; l++)
        if (same_line(&other, &full, l)) {
            drawn++;
        } else {
            kept = kept && all(other.frame + LINE * l, LINE, FOREIGN) && other.notes[l] == FOREIGN && same_line(&before, &full, l);
        }
    check(kept && drawn == (int)got, told);
    check(other.lent.block[13] == after_notes(before.lent.block[13], other.notes), told);
    other.lent.block[13] = now.lent.block[13]; /* the rest does not turn on the notes */
    check(memcmp(other.lent.block, now.lent.block, VDP_BLOCK_SIZE) == 0 && map_clear(&other) && rest_kept(&other), told);
    return (int)got;
}

/* With map and redraw mark clear a refresh leaves the frame and the notes as lent, whatever they hold. */
static void left_alone(const char *what, int l)
{
    other = now;
    memset(other.frame + LINE * l, FOREIGN, LINE);
    other.notes[l] = FOREIGN;
    full = other;
    check(draw(vdp_refresh, &other) == 0, what);
    check(memcmp(other.frame, full.frame, sizeof other.frame) == 0 && memcmp(other.notes, full.notes, sizeof other.notes) == 0, what);
}

/* Power-up and these registers; the count of lost first bytes is not the 0 of power-up. */
static void power_up(const uint8_t registers[8])
{
    memset(&now, 0x77, sizeof now);
    memset(now.lent.map, 0, sizeof now.lent.map);
    vdp_power_up(now.lent.block, VDP_BLOCK_SIZE, now.lent.vram, 16384);
    for (unsigned r = 0; r < 8; r++) write_register(r, registers[r]);
    put_lost(now.lent.block, 0x2B67);
}

static const uint8_t edge[8] = { 0x00, 0x40, 0x01, 0x80, 0x01, 0x06, 0x00, 0x00 };

/* One write each between a full draw and a refresh: of the byte that is there, and of another. */
static void edge_cases(void)
{
    static const struct {
        unsigned address;
        int lines;
        const char *what;
    } cases[] = {
        { 0x0400, 8, "the first name" },
        { 0x0300, 192, "the sprite terminator" },
        { 0x2000, 192, "the colour of every name" },
        { 0x0304, 0, "past the sprite terminator" },
        { 0x0700, 0, "past the names" },
    };
    struct drawn start;
    power_up(edge);
    write_at(0x0300, 0xD0);
    before = now;
    fully_drawn("the set-up");
    now = full;
    check(now.lent.block[14] == 0 && map_clear(&now), "the set-up: redraw mark and map clear");
    start = now;
    refreshed("no write", 0);
    for (size_t i = 0; i < sizeof cases / sizeof cases[0]; i++)
        for (int another = 0; another < 2; another++) {
            now = start;
            check(write_at(cases[i].address, (uint8_t)(now.lent.vram[cases[i].address] ^ another)) == 0, cases[i].what);
            check(now.lent.block[14] == 0 && !map_clear(&now), cases[i].what);
            refreshed(cases[i].what, cases[i].lines);
            left_alone(cases[i].what, 100);
        }
    now = start;
    write_register(7, 0x00);
    refreshed("a register write of the kept byte", 0);
    write_register(7, 0x01);
    refreshed("a register write", 192);
}

static uint32_t seed = 0x9918;

static unsigned below(unsigned count)
{
    seed ^= seed << 13;
    seed ^= seed >> 17;
    seed ^= seed << 5;
    return seed % count;
}

static const uint8_t modes[][8] = {
    { 0x00, 0x40, 0x01, 0x80, 0x01, 0x06, 0x00, 0x00 }, /* Graphics I */
    { 0x00, 0xE3, 0x05, 0x80, 0x01, 0x20, 0x00, 0x01 }, /* the same, with size and magnify */
    { 0x02, 0xC2, 0x0E, 0xFF, 0x03, 0x76, 0x03, 0x0F }, /* Graphics II */
    { 0x02, 0xC0, 0x0E, 0x9F, 0x00, 0x76, 0x03, 0x0F }, /* the same, with its tables cut short */
    { 0x00, 0xCB, 0x05, 0x00, 0x01, 0x20, 0x00, 0x04 }, /* Multicolor */
    { 0x00, 0xD0, 0x02, 0x00, 0x00, 0x20, 0x00, 0x71 }, /* Text */
    { 0x00, 0x80, 0x05, 0x80, 0x01, 0x20, 0x00, 0x06 }, /* display off */
};

/* One call or a few, mostly to the tables that the registers name. */
static uint32_t step(void)
{
    const uint8_t *r = now.lent.block;
    uint8_t line[LINE], origins[LINE];
    unsigned m;
    uint32_t refused = 0;
    switch (below(40)) {
    case 0: case 1: case 2: case 3: case 4: case 5: case 6: case 7: return write_at(r[2] * 0x400u + below(960), (uint8_t)below(256));
    case 8: case 9: case 10: case 11: case 12: return write_at(r[4] * 0x800u + below(2048), (uint8_t)below(256));
    case 13: return write_at(r[4] / 4 * 0x2000u + below(0x1800), (uint8_t)below(256));
    case 14: case 15: return write_at(r[3] * 0x40u + below(32), (uint8_t)below(256));
    case 16: return write_at(r[3] / 128 * 0x2000u + below(0x1800), (uint8_t)below(256));
    case 17: case 18: return write_at(r[5] * 0x80u + below(128), (uint8_t)below(256));
    case 19: return write_at(r[5] * 0x80u + 4 * below(8), 0xD0);
    case 20: case 21: return write_at(r[6] * 0x800u + below(2048), (uint8_t)below(256));
    case 22: return write_at(below(16384), (uint8_t)below(256));
    case 23: return write_data((uint8_t)below(256));
    case 24: return write_register(below(8), (uint8_t)below(256));
    case 25: case 26:
        m = below(sizeof modes / sizeof modes[0]);
        for (unsigned k = 0; k < 8; k++) refused |= write_register(k, modes[m][k]);
        return refused;
    case 27: return control((uint8_t)below(256));
    case 28: return below(4) ? vdp_end_of_display(now.lent.block, VDP_BLOCK_SIZE) : vdp_reset(now.lent.block, VDP_BLOCK_SIZE);
    case 29: case 30: case 31: return VDP_REFUSAL(vdp_status_read(now.lent.block, VDP_BLOCK_SIZE));
    case 32: case 33: return VDP_REFUSAL(vdp_data_read(now.lent.block, VDP_BLOCK_SIZE, now.lent.vram, 16384));
    default: return vdp_draw_line(now.lent.block, VDP_BLOCK_SIZE, now.lent.vram, 16384, line, LINE, origins, LINE, below(LINES));
    }
}

/* Rounds of calls and a refresh, from a full draw on. A count is known where the redraw mark is set, and where nothing was
 * written. */
static void rounds(void)
{
    int none = 0, some = 0, every = 0;
    char what[32];
    power_up(edge);
    for (unsigned a = 0; a < 16384; a++) write_at(a, (uint8_t)(below(3) ? 0 : below(256)));
    before = now;
    fully_drawn("the start of the rounds");
    now = full;
    for (int round = 0; round < 800; round++) {
        snprintf(what, sizeof what, "round %d", round);
        for (unsigned steps = below(6); steps > 0; steps--) check(step() == 0, what);
        int got = refreshed(what, now.lent.block[14] ? LINES : map_clear(&now) ? 0 : -1);
        none += got == 0;
        every += got == LINES;
        some += 0 < got && got < LINES;
        left_alone(what, (int)below(LINES));
    }
    printf("rounds: %d with no line, %d with some, %d with all\n", none, some, every);
    check(none > 80 && some > 80 && every > 80, "rounds of each kind");
}

static const size_t frame_lens[] = { 49152, 49151, 49153, 0 };
static const size_t notes_lens[] = { 192, 191, 193, 0 };

/* Every combination of lengths and contents: the first test that fails, in the order 1, 2, 3, decides. */
static void refusal(const char *name, call *call, int v, int m, int f, int n, int b, int way)
{
    unsigned want = v ? VDP_VRAM_LENGTH : m || f || n || b ? VDP_SLICE_LENGTH : way ? VDP_ILL_FORMED : VDP_ACCEPTED;
    char what[160];
    uint32_t got = call(now.lent.block, block_lens[b], now.lent.vram, vram_lens[v], now.lent.map, map_lens[m], now.frame, frame_lens[f], now.notes, notes_lens[n]);
    snprintf(what, sizeof what, "%s: vram %zu, map %zu, frame %zu, notes %zu, block %zu, contents %d: answer %u, refusal %u wanted", name, vram_lens[v], map_lens[m], frame_lens[f], notes_lens[n], block_lens[b], way, (unsigned)got, want);
    check(want ? got == want * 256 : VDP_REFUSAL(got) == 0, what);
    check(want ? memcmp(&now, &before, sizeof now) == 0 : rest_kept(&now), what);
    if (!want || memcmp(&now, &before, sizeof now) != 0) now = before;
}

static void refusals(const char *name, call *call)
{
    static const uint8_t block[VDP_BLOCK_SIZE] = { 0x00, 0xE3, 0x05, 0x80, 0x01, 0x20, 0x03, 0xF1, 0x34, 0x12, 0x99, 1, 0xFF, 0x00, 1, 0x67, 0x2B };
    size_t i;
    for (int way = 0; way < WAYS; way++) {
        for (i = 0; i < sizeof now.lent.vram; i++) now.lent.vram[i] = (uint8_t)(i * 7 + i / 256 + 1);
        for (i = 0; i < sizeof now.lent.map; i++) now.lent.map[i] = (uint8_t)(i % 3);
        memcpy(now.lent.block, block, sizeof block);
        now.lent.block[VDP_BLOCK_SIZE] = 0x77;
        memset(now.frame, FOREIGN, sizeof now.frame);
        memset(now.notes, FOREIGN, sizeof now.notes);
        spoil(now.lent.block, way);
        before = now;
        for (int v = 0; v < 4; v++)
            for (int m = 0; m < 4; m++)
                for (int f = 0; f < 4; f++)
                    for (int n = 0; n < 4; n++)
                        for (int b = 0; b < BLOCK_LENS; b++) refusal(name, call, v, m, f, n, b, way);
    }
}

/* Notes that a refresh keeps update status too: every byte as a note, on a line before one with sprite 9 as the fifth. */
static void kept_notes(void)
{
    static const uint8_t statuses[] = { 0x00, 0x1F, 0x20, 0x45, 0x80 };
    char told[80];
    power_up(edge);
    check(draw(vdp_full_draw, &now) == 0 && VDP_LOST(now.lent.block) == 0x2B67, "kept notes");
    for (size_t i = 0; i < sizeof statuses; i++)
        for (unsigned note = 0; note < 256; note++) {
            other = now;
            memset(other.notes, 32, LINES);
            other.notes[100] = (uint8_t)note;
            other.notes[150] = 9;
            other.lent.block[13] = statuses[i];
            snprintf(told, sizeof told, "status %02X, a kept note %02X", (unsigned)statuses[i], note);
            check(draw(vdp_refresh, &other) == 0 && other.notes[100] == note && other.notes[150] == 9, told);
            check(other.lent.block[13] == after_notes(statuses[i], other.notes), told);
        }
    other = now;
    memset(other.notes, 32, LINES);
    other.notes[100] = 64 + 7;
    other.notes[150] = 9;
    other.lent.block[13] = 0x1F;
    check(draw(vdp_refresh, &other) == 0 && other.lent.block[13] == 0x67 && VDP_LOST(other.lent.block) == 0x2B67, "status 1F, a kept note 47: 67");
}

int main(void)
{
    edge_cases();
    kept_notes();
    rounds();
    refusals("full_draw", vdp_full_draw);
    refusals("refresh", vdp_refresh);
    return finish("frames");
}
