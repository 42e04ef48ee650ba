/* The log calls from C: the run, against known bytes and against the same calls made singly, reading and writing a log's
 * records, each refusal number, the right one when two apply at once, and nothing changed after a refusal. The folder with
 * the sample logs is its argument. */
#include "check.h"

enum { LINE = 256, TRAILER = 4, MOST = 20000, LONGEST = 40004, FOREIGN = 0xEE };

/* Longer than any log that is lent: the lengths whose distance would be right modulo 65,536 are among them. */
enum { ROOM = 65536 + LONGEST + 1 };

/* What a run is lent, with room for one byte too many. */
struct lent_run {
    struct lent lent;
    uint8_t line[LINE + 1];
    uint8_t outcome[VDP_OUTCOME_SIZE + 1];
};

static struct lent_run now, before, alone;

/* The log and the record bytes that are lent, and what they held before. */
static uint8_t lent_log[ROOM], log_before[ROOM], lent_records[ROOM], records_before[ROOM];

static uint32_t seed = 0x9918;

static unsigned below(unsigned count)
{
    seed ^= seed << 13;
    seed ^= seed >> 17;
    seed ^= seed << 5;
    return seed % count;
}

/* The trailer of these bytes, written at once behind them. */
static void put_trailer(uint8_t *bytes, size_t count)
{
    uint32_t sum = 0;
    for (size_t i = 0; i < count; i++) sum += bytes[i];
    bytes[count] = (uint8_t)count;
    bytes[count + 1] = (uint8_t)(count >> 8);
    bytes[count + 2] = (uint8_t)sum;
    bytes[count + 3] = (uint8_t)(sum >> 8);
}

static uint32_t run(struct lent_run *r, const uint8_t *bytes, size_t count)
{
    return vdp_run_log(r->lent.block, VDP_BLOCK_SIZE, r->lent.vram, 16384, r->lent.map, 2048, r->line, 256, bytes, count, r->outcome, 4);
}

/* A state in which every operation changes something: Graphics I, sprites with size and magnify, a first byte waiting,
 * others lost (hex 2BFF, so that the next carries), and a read buffer that is not the byte which the next read fetches. */
static void fill(struct lent_run *r)
{
    static const uint8_t block[VDP_BLOCK_SIZE] = { 0x00, 0xE3, 0x05, 0x80, 0x01, 0x20, 0x03, 0xF1, 0x34, 0x12, 0x99, 1, 0x55, 0x1F, 0, 0xFF, 0x2B };
    for (size_t i = 0; i < sizeof r->lent.vram; i++) r->lent.vram[i] = (uint8_t)(i * 7 + i / 256 + 1);
    for (size_t i = 0; i < sizeof r->lent.map; i++) r->lent.map[i] = (uint8_t)(i % 3);
    memcpy(r->lent.block, block, sizeof block);
    r->lent.block[VDP_BLOCK_SIZE] = 0x77;
    memset(r->line, FOREIGN, sizeof r->line);
    memset(r->outcome, FOREIGN, sizeof r->outcome);
}

/* One record by the single call that it names. A run has no slice for origins, and they are not looked at. */
static uint32_t single(struct lent_run *r, uint8_t operation, uint8_t value)
{
    uint8_t origins[LINE];
    switch (operation) {
    case VDP_LOG_DATA_WRITE: return vdp_data_write(r->lent.block, VDP_BLOCK_SIZE, r->lent.vram, 16384, r->lent.map, 2048, value);
    case VDP_LOG_CONTROL_WRITE: return vdp_control_write(r->lent.block, VDP_BLOCK_SIZE, r->lent.vram, 16384, value);
    case VDP_LOG_DATA_READ: return vdp_data_read(r->lent.block, VDP_BLOCK_SIZE, r->lent.vram, 16384);
    case VDP_LOG_STATUS_READ: return vdp_status_read(r->lent.block, VDP_BLOCK_SIZE);
    case VDP_LOG_DRAW_LINE: return vdp_draw_line(r->lent.block, VDP_BLOCK_SIZE, r->lent.vram, 16384, r->line, 256, origins, 256, value);
    case VDP_LOG_END_OF_DISPLAY: return vdp_end_of_display(r->lent.block, VDP_BLOCK_SIZE);
    default: return vdp_reset(r->lent.block, VDP_BLOCK_SIZE);
    }
}

static int is_read(uint8_t operation) { return operation == VDP_LOG_DATA_READ || operation == VDP_LOG_STATUS_READ; }

static void put_outcome(struct lent_run *r, size_t done, size_t place)
{
    r->outcome[0] = (uint8_t)done;
    r->outcome[1] = (uint8_t)(done >> 8);
    r->outcome[2] = (uint8_t)place;
    r->outcome[3] = (uint8_t)(place >> 8);
}

/* The records by single calls, up to the first read that differs: what a run has to leave and to answer. */
static uint32_t singly(struct lent_run *r, const uint8_t *records, size_t count)
{
    for (size_t i = 0; i < count; i++) {
        uint32_t answer = single(r, records[2 * i], records[2 * i + 1]);
        if (VDP_REFUSAL(answer) != 0) return answer;
        if (is_read(records[2 * i]) && answer != records[2 * i + 1]) {
            put_outcome(r, i + 1, i);
            return answer;
        }
    }
    put_outcome(r, count, count);
    return 0;
}

/* The run of these records from 'now' is what the single calls are, and the log stays as it is. */
static uint32_t runs(const char *what, const uint8_t *records, size_t count)
{
    memcpy(lent_log, records, 2 * count);
    put_trailer(lent_log, 2 * count);
    memcpy(log_before, lent_log, 2 * count + TRAILER);
    alone = now;
    uint32_t wanted = singly(&alone, records, count);
    uint32_t got = run(&now, lent_log, 2 * count + TRAILER);
    check(got == wanted, what);
    check(memcmp(&now, &alone, sizeof now) == 0, what);
    check(memcmp(lent_log, log_before, 2 * count + TRAILER) == 0, what);
    return got;
}
#define RUNS(what, ...) runs(what, (const uint8_t[]){ __VA_ARGS__ }, sizeof((const uint8_t[]){ __VA_ARGS__ }) / 2)

static int outcome_is(size_t done, size_t place)
{
    return now.outcome[0] + 256u * now.outcome[1] == done && now.outcome[2] + 256u * now.outcome[3] == place;
}

static unsigned address(void) { return now.lent.block[8] + 256u * now.lent.block[9]; }
static unsigned lost(void) { return VDP_LOST(now.lent.block); }

/* One operation of each kind, by the bytes that it has to leave. */
static void each_operation(void)
{
    fill(&now);
    before = now;
    check(runs("no records", lent_records, 0) == 0 && outcome_is(0, 0), "no records: none done");
    put_outcome(&before, 0, 0);
    check(memcmp(&now, &before, sizeof now) == 0, "no records: all as it was");

    fill(&now);
    before = now;
    check(RUNS("a data write", 0, 0xAA) == 0 && outcome_is(1, 1), "a data write: one done");
    check(now.lent.vram[0x1234] == 0xAA && now.lent.block[10] == 0xAA && address() == 0x1235, "a data write: VRAM, buffer, address");
    check(now.lent.block[11] == 0 && now.lent.block[12] == 0 && lost() == 0x2C00, "a data write drops the first byte, and counts it");
    before.lent.map[0x1234 / 8] |= 1 << 0x1234 % 8;
    check(memcmp(now.lent.map, before.lent.map, sizeof now.lent.map) == 0, "a data write: its map bit alone");
    before.lent.vram[0x1234] = 0xAA;
    check(memcmp(now.lent.vram, before.lent.vram, sizeof now.lent.vram) == 0, "a data write: its byte alone");

    fill(&now);
    check(RUNS("a control write", 1, 0x87) == 0 && outcome_is(1, 1), "a control write: one done");
    check(now.lent.block[7] == 0x55 && address() == 0x0755 && now.lent.block[11] == 0 && now.lent.block[14] == 1 && lost() == 0x2BFF, "it completes the pair that waited");
    check(RUNS("a first byte", 1, 0x87) == 0 && now.lent.block[11] == 1 && now.lent.block[12] == 0x87, "a first byte waits behind the run");
    check(RUNS("a pair over two runs", 1, 0x2F, 1, 0x10) == 0 && outcome_is(2, 2) && address() == 0x2F88 && now.lent.block[12] == 0x10, "a pair over two runs, and the next byte");

    fill(&now);
    check(RUNS("a data read", 2, 0x99) == 0 && outcome_is(1, 1), "a data read of the expected byte");
    check(now.lent.block[10] == now.lent.vram[0x1234] && address() == 0x1235 && now.lent.block[11] == 0 && lost() == 0x2C00, "a data read: buffer, address, nothing waits, one more lost");

    fill(&now);
    now.lent.block[13] = 0xFF;
    check(RUNS("a status read", 3, 0xFF) == 0 && outcome_is(1, 1), "a status read of the expected byte");
    check(now.lent.block[13] == 0x1F && now.lent.block[11] == 0 && lost() == 0x2C00, "a status read: flags, nothing waits, one more lost");

    fill(&now);
    now.lent.block[13] = 0;
    memset(now.lent.vram, 0, VDP_VRAM_SIZE);
    memset(now.lent.vram + 0x2000, 0x4F, 32);
    check(RUNS("a line", 4, 1) == 0 && outcome_is(1, 1), "a line: one done");
    check(now.line[0] == 15 && now.line[255] == 15 && now.line[256] == FOREIGN, "a line: its colours");
    check(now.lent.block[13] == 0x44 && now.lent.block[11] == 1 && lost() == 0x2BFF, "a line: status, and the first byte still waits");

    fill(&now);
    check(RUNS("the end of active display", 5, 0) == 0 && outcome_is(1, 1), "the end of active display: one done");
    check(now.lent.block[13] == 0x9F && now.lent.block[11] == 1 && lost() == 0x2BFF, "the end of active display: F, and the first byte still waits");

    fill(&now);
    check(RUNS("reset", 6, 0) == 0 && outcome_is(1, 1), "reset: one done");
    check(now.lent.block[0] == 0 && now.lent.block[1] == 0 && now.lent.block[2] == 5 && now.lent.block[11] == 0 && now.lent.block[13] == 0 && now.lent.block[14] == 1 && lost() == 0, "reset: what it clears and sets");

    /* A log that cannot be written to. */
    static const uint8_t fixed[] = { 1, 0x42, 1, 0x40, 0, 0xAA, 6, 0, 0, 0 };
    fill(&now);
    now.lent.block[11] = now.lent.block[12] = 0;
    check(run(&now, fixed, sizeof fixed) == 8 * 256, "a wrong trailer");
    static const uint8_t right[] = { 1, 0x42, 1, 0x40, 0, 0xAA, 6, 0, 0x2E, 0x01 };
    check(run(&now, right, sizeof right) == 0 && outcome_is(3, 3) && now.lent.vram[0x42] == 0xAA && address() == 0x43, "a right one");
}

/* The count of lost first bytes over several records. */
static void losses(void)
{
    fill(&now);
    vdp_power_up(now.lent.block, VDP_BLOCK_SIZE, now.lent.vram, 16384);
    RUNS("a status read between two control bytes", 1, 0x34, 3, 0x00, 1, 0x52);
    check(outcome_is(3, 3) && lost() == 1 && now.lent.block[11] == 1 && now.lent.block[12] == 0x52 && address() == 0, "one first byte lost, and the second byte waits as a first");
    RUNS("data behind it", 0, 0x11, 0, 0x22, 2, 0x22);
    check(lost() == 2 && now.lent.vram[0] == 0x11 && now.lent.vram[1] == 0x22, "the first data write loses that one too");
    RUNS("pairs", 1, 0x34, 1, 0x52, 0, 0x33, 3, 0x00, 1, 0x34, 1, 0x12, 2, 0x33, 5, 0, 3, 0x80);
    check(lost() == 2 && now.lent.vram[0x1234] == 0x33, "pairs that are not cut in two lose none");
    RUNS("a read that differs", 1, 0x34, 3, 0x01, 1, 0x34, 3, 0x00);
    check(outcome_is(2, 1) && lost() == 3, "the read that differs loses a byte, and no record is done behind it");
    RUNS("reset with a first byte waiting", 1, 0x34, 6, 0);
    check(lost() == 0, "reset: none lost");
    RUNS("behind reset", 1, 0x34, 3, 0x00);
    check(lost() == 1, "one lost since reset");

    static uint8_t records[2 * MOST];
    for (size_t i = 0; i < MOST; i++) records[2 * i] = i % 2 ? VDP_LOG_DATA_WRITE : VDP_LOG_CONTROL_WRITE, records[2 * i + 1] = (uint8_t)i;
    fill(&now);
    put_lost(now.lent.block, 65535 - 9999);
    now.lent.block[11] = now.lent.block[12] = 0;
    runs("10,000 lost, up to 65,535", records, MOST);
    check(lost() == 65535, "10,000 lost, up to 65,535: it stops there");
}

/* A read in a run of 'count' records, at 'place'. Before it stand data writes of 11, 12 and so on, behind it others. */
static void with_read(uint8_t *records, size_t count, size_t place, uint8_t operation, uint8_t value)
{
    for (size_t i = 0; i < count; i++) {
        records[2 * i] = VDP_LOG_DATA_WRITE;
        records[2 * i + 1] = (uint8_t)(i < place ? 0x11 + i : 0xC0 + i % 16);
    }
    records[2 * place] = operation;
    records[2 * place + 1] = value;
}

/* Reads that differ: at the first record, in the middle, at the last; each wrong value, and the right one. */
static void differing_reads(void)
{
    static const size_t places[][2] = { { 1, 0 }, { 2, 0 }, { 2, 1 }, { 5, 2 }, { 5, 4 }, { 300, 255 }, { 300, 256 }, { 300, 257 }, { 600, 513 } };
    static uint8_t records[2 * 600];
    char what[96];
    for (size_t p = 0; p < sizeof places / sizeof places[0]; p++)
        for (uint8_t operation = VDP_LOG_DATA_READ; operation <= VDP_LOG_STATUS_READ; operation++)
            for (unsigned value = 0; value < 256; value += p < 5 ? 1 : 51) {
                size_t count = places[p][0], place = places[p][1];
                snprintf(what, sizeof what, "operation %d, value %02X, place %zu of %zu", operation, value, place, count);
                fill(&now);
                now.lent.block[13] = 0xE7;
                now.lent.vram[0x1234 + place] = 0x3C; /* what a data read fetches is not what it gives */
                with_read(records, count, place, operation, (uint8_t)value);
                uint8_t read = operation == VDP_LOG_STATUS_READ ? 0xE7 : place == 0 ? 0x99 : (uint8_t)(0x11 + place - 1);
                uint32_t got = runs(what, records, count);
                if (value == read) {
                    check(got == 0 && outcome_is(count, count), what);
                    continue;
                }
                check(got == read && outcome_is(place + 1, place), what);
                /* The read is done, and nothing behind it is. */
                unsigned reached = 0x1234 + (unsigned)place + (operation == VDP_LOG_DATA_READ);
                check(address() == reached && now.lent.vram[reached] != 0xC0 + (place + 1) % 16, what);
                check(operation == VDP_LOG_DATA_READ ? now.lent.block[10] == 0x3C : now.lent.block[13] == 0x07, what);
            }

    fill(&now);
    now.lent.block[10] = 0;
    check(RUNS("a found byte of 0", 2, 1, 0, 5) == 0 && outcome_is(1, 0), "a found byte of 0: the outcome tells");
    fill(&now);
    check(RUNS("two reads that differ", 3, 0x1F, 3, 0x1E, 2, 0x98) == 0x1F && outcome_is(2, 1), "two reads that differ: the first counts");
}

/* The line slice: the last line drawn, or what was lent. */
static void line_slice(void)
{
    static uint8_t first[LINE], second[LINE], origins[LINE];
    fill(&alone);
    vdp_draw_line(alone.lent.block, VDP_BLOCK_SIZE, alone.lent.vram, 16384, first, 256, origins, 256, 8);
    vdp_draw_line(alone.lent.block, VDP_BLOCK_SIZE, alone.lent.vram, 16384, second, 256, origins, 256, 191);
    check(memcmp(first, second, LINE) != 0, "two lines that differ");

    fill(&now);
    RUNS("no line", 0, 1, 1, 2, 2, 1, 3, 0x1F, 5, 0, 6, 0);
    fill(&before);
    check(outcome_is(6, 6) && memcmp(now.line, before.line, sizeof now.line) == 0, "no line drawn: the slice as lent");
    fill(&now);
    RUNS("two lines", 4, 8, 4, 191);
    check(memcmp(now.line, second, LINE) == 0, "two lines: the last one");
    fill(&now);
    RUNS("a line, then others", 4, 8, 5, 0, 1, 7, 0, 3);
    check(memcmp(now.line, first, LINE) == 0, "a line, and then other calls");
    fill(&now);
    RUNS("a read that differs between two lines", 4, 8, 2, 0x98, 4, 191);
    check(outcome_is(2, 1) && memcmp(now.line, first, LINE) == 0, "a line before the read that differs");
    fill(&now);
    RUNS("a read that differs before a line", 2, 0x98, 4, 8);
    check(outcome_is(1, 0) && memcmp(now.line, before.line, sizeof now.line) == 0, "a line behind the read that differs");
    for (unsigned number = 0; number < 192; number++) {
        fill(&now);
        RUNS("each line number", 4, (uint8_t)number);
    }
}

/* The map bit of a data write: alone, from the last address on, and at every address. */
static void map_bits(void)
{
    static uint8_t records[2 * 16384];
    char what[48];
    for (unsigned i = 0; i < 300; i++) {
        unsigned at = (16383 + 61 * i) % 16384;
        snprintf(what, sizeof what, "the map bit of %u", at);
        fill(&now);
        now.lent.block[8] = (uint8_t)at;
        now.lent.block[9] = (uint8_t)(at / 256);
        memset(now.lent.map, 0, VDP_MAP_SIZE);
        before = now;
        before.lent.map[at / 8] = (uint8_t)(1 << at % 8);
        RUNS(what, 0, now.lent.vram[at]);
        check(memcmp(now.lent.map, before.lent.map, sizeof now.lent.map) == 0, what);
    }
    fill(&now);
    memset(now.lent.map, 0, VDP_MAP_SIZE);
    for (size_t i = 0; i < 16384; i++) records[2 * i] = 0, records[2 * i + 1] = (uint8_t)(i / 64);
    runs("a write to every address", records, 16384);
    size_t set = 0;
    for (size_t i = 0; i < VDP_MAP_SIZE; i++) set += now.lent.map[i] == 0xFF;
    check(set == VDP_MAP_SIZE && address() == 0x1234, "a write to every address: the whole map, and the address comes round");
}

/* A random record; a read's value is what the read gives in 'alone', which makes the call. */
static void put_random(uint8_t *record, int resets)
{
    unsigned kind = below(16);
    record[0] = (uint8_t)(kind < 5 ? VDP_LOG_DATA_WRITE : kind < 9 ? VDP_LOG_CONTROL_WRITE : kind < 12 ? VDP_LOG_DATA_READ : kind < 13 ? VDP_LOG_STATUS_READ : kind < 14 ? VDP_LOG_DRAW_LINE : kind < 15 ? VDP_LOG_END_OF_DISPLAY : VDP_LOG_RESET);
    /* A reset seldom, because it turns the display off and clears the count of lost first bytes. */
    if (record[0] == VDP_LOG_RESET && (!resets || below(8))) record[0] = VDP_LOG_CONTROL_WRITE;
    record[1] = (uint8_t)(record[0] == VDP_LOG_DRAW_LINE ? below(192) : record[0] >= VDP_LOG_END_OF_DISPLAY ? 0 : below(256));
    uint32_t answer = single(&alone, record[0], record[1]);
    if (is_read(record[0])) record[1] = (uint8_t)answer;
}

/* Random logs, all reads right and then one of them wrong; and a log in two parts, which leaves what the whole leaves. */
static void random_logs(void)
{
    static const size_t counts[] = { 0, 1, 2, 3, 255, 256, 257, 19999, 20000 };
    static uint8_t records[2 * MOST];
    static const unsigned lost_before[] = { 65534, 65535, 0, 0x2BFF };
    static struct lent_run start, whole;
    int rose = 0, stopped = 0;
    char what[96];
    for (int round = 0; round < 60; round++) {
        size_t count = round < 9 ? counts[round] : below(round % 5 ? 600 : MOST + 1);
        fill(&start);
        for (size_t i = 0; i < VDP_VRAM_SIZE; i++) start.lent.vram[i] = (uint8_t)(below(4) ? below(256) : 0);
        start.lent.block[1] = (uint8_t)(0xC0 + below(4));
        start.lent.block[14] = (uint8_t)below(2);
        put_lost(start.lent.block, lost_before[round % 4]);
        alone = start;
        for (size_t i = 0; i < count; i++) put_random(records + 2 * i, round % 3 == 0);
        now = start;
        snprintf(what, sizeof what, "round %d: %zu records", round, count);
        check(runs(what, records, count) == 0 && outcome_is(count, count), what);
        whole = now;
        rose += lost() > lost_before[round % 4];
        stopped += lost_before[round % 4] >= 65534 && lost() == 65535;

        size_t cut = count ? below((unsigned)count + 1) : 0;
        snprintf(what, sizeof what, "round %d: %zu records, cut at %zu", round, count, cut);
        now = start;
        runs(what, records, cut);
        runs(what, records + 2 * cut, count - cut);
        memcpy(now.outcome, whole.outcome, sizeof now.outcome);
        check(memcmp(&now, &whole, sizeof now) == 0, what);

        /* The first, some and the last read wrong, one at a time. */
        size_t reads = 0, seen = 0;
        for (size_t i = 0; i < count; i++) reads += is_read(records[2 * i]);
        size_t wrong[] = { 0, reads / 2, reads ? reads - 1 : 0 };
        for (size_t i = 0; i < count; i++)
            if (is_read(records[2 * i])) {
                if (seen == wrong[0] || seen == wrong[1] || seen == wrong[2]) {
                    uint8_t right = records[2 * i + 1];
                    records[2 * i + 1] = (uint8_t)(right ^ 1 << below(8));
                    now = start;
                    snprintf(what, sizeof what, "round %d: %zu records, read %zu wrong", round, count, i);
                    check(runs(what, records, count) == right && outcome_is(i + 1, i), what);
                    records[2 * i + 1] = right;
                }
                seen++;
            }
    }
    check(rose > 10 && stopped > 10, "random logs that lose first bytes, and that lose more than are counted");
}

/* As many records as there can be: data writes, control pairs, and a wrong read at the very end. */
static void longest(void)
{
    static uint8_t records[2 * MOST];
    fill(&now);
    for (size_t i = 0; i < MOST; i++) records[2 * i] = 0, records[2 * i + 1] = (uint8_t)(255 - i % 251);
    check(runs("20,000 data writes", records, MOST) == 0 && outcome_is(MOST, MOST), "20,000 data writes");
    fill(&now);
    now.lent.block[11] = now.lent.block[12] = 0;
    for (size_t i = 0; i < MOST; i++) records[2 * i] = 1, records[2 * i + 1] = (uint8_t)(i * 37 + i / 256);
    check(runs("10,000 pairs", records, MOST) == 0 && outcome_is(MOST, MOST) && now.lent.block[11] == 0, "10,000 pairs");
    fill(&now);
    with_read(records, MOST, MOST - 1, VDP_LOG_STATUS_READ, 0x1E);
    check(runs("the last of 20,000 wrong", records, MOST) == 0x1F && outcome_is(MOST, MOST - 1), "the last of 20,000 wrong");
    fill(&now);
    with_read(records, MOST, MOST - 2, VDP_LOG_STATUS_READ, 0x1E);
    check(runs("the last but one wrong", records, MOST) == 0x1F && outcome_is(MOST - 1, MOST - 2), "the last but one of 20,000 wrong");
}

/* Good record bytes: each operation in turn, and as its value something allowed, the bounds among them. */
static void put_good(uint8_t *records, size_t count)
{
    for (size_t i = 0; i < count; i++) {
        size_t record = i / 2;
        uint8_t operation = (uint8_t)(record % 7);
        records[i] = i % 2 == 0 ? operation : operation >= VDP_LOG_END_OF_DISPLAY ? 0 : operation == VDP_LOG_DRAW_LINE ? (uint8_t)(191 - record / 7 % 192) : (uint8_t)(255 - record / 7 % 256);
    }
}

/* Reading what was written and writing what was read: good record bytes of each length. */
static void round_trips(void)
{
    static const size_t counts[] = { 0, 1, 2, 7, 63, 64, 127, 128, 2340, 19999, 20000 };
    static uint8_t records[2 * MOST];
    char what[64];
    for (size_t c = 0; c < sizeof counts / sizeof counts[0]; c++) {
        size_t bytes = 2 * counts[c];
        put_good(records, bytes);
        snprintf(what, sizeof what, "round trip of %zu records", counts[c]);
        memset(lent_log, FOREIGN, ROOM);
        memset(log_before, FOREIGN, ROOM);
        memcpy(log_before, records, bytes);
        put_trailer(log_before, bytes);
        memcpy(lent_records, records, bytes);
        check(vdp_write_log(lent_records, bytes, lent_log, bytes + TRAILER) == 0, what);
        check(memcmp(lent_log, log_before, ROOM) == 0 && memcmp(lent_records, records, bytes) == 0, what);
        memset(lent_records, FOREIGN, ROOM);
        memset(records_before, FOREIGN, ROOM);
        memcpy(records_before, records, bytes);
        check(vdp_read_log(lent_log, bytes + TRAILER, lent_records, bytes) == 0, what);
        check(memcmp(lent_records, records_before, ROOM) == 0 && memcmp(lent_log, log_before, ROOM) == 0, what);
        memset(lent_log, FOREIGN, ROOM);
        check(vdp_write_log(lent_records, bytes, lent_log, bytes + TRAILER) == 0 && memcmp(lent_log, log_before, ROOM) == 0, what);
        fill(&now);
        check(VDP_REFUSAL(run(&now, lent_log, bytes + TRAILER)) == 0, what);
    }
    /* The sum alone: record bytes whose sum passes 65,536 several times. */
    memset(lent_records, 0, ROOM);
    for (size_t i = 0; i < 1000; i++) lent_records[2 * i + 1] = 0xFF;
    check(vdp_write_log(lent_records, 2000, lent_log, 2004) == 0, "a large sum");
    check(lent_log[2000] == 0xD0 && lent_log[2001] == 0x07 && lent_log[2002] == 0x18 && lent_log[2003] == 0xE4, "a large sum: 255,000 modulo 65,536 is hex E418");
}

/* What can be wrong with what the three calls are lent. Two faults of one kind exclude each other. */
enum kind { VRAM, BLOCK, MAP, LINE_SLICE, OUTCOME, CONTENTS, LOG, RECORD_BYTES, DISTANCE, SUM, RECORD, NONE };
struct fault {
    enum kind kind;
    int how;
};
static const char *const kinds[] = { "vram", "block", "map", "line", "outcome", "contents", "log", "record bytes", "distance", "sum", "record", "nothing" };

/* The refusal of each kind. In the order 1, 2, 3, 8, 9 the earlier is the smaller. */
static const unsigned numbers[] = { 1, 2, 2, 2, 2, 3, 8, 8, 8, 8, 9, 10 };

/* Lengths of a log, its trailer right for each; and how many more record bytes are lent than it asks for. */
static const size_t log_lens[] = { 0, 1, 2, 3, 5, 7, 45, 47, 40005, 40006, 40008, 65540, 65582, 105540 };
static const int records_more[] = { 1, -1, 2, -2, 4, -42 };
static const size_t line_lens[] = { 256, 255, 257, 0 };
static const size_t outcome_lens[] = { 4, 3, 5, 0 };

/* Records that are not allowed, for the first, a middle and the last place. */
static const uint8_t bad_records[][2] = {
    { 7, 0 }, { 8, 0 }, { 128, 0 }, { 255, 255 }, { 4, 192 }, { 4, 193 }, { 4, 255 },
    { 5, 1 }, { 5, 128 }, { 5, 255 }, { 6, 1 }, { 6, 128 }, { 6, 255 }
};
enum { BAD = sizeof bad_records / sizeof bad_records[0], GOOD_BYTES = 42, SLIPS = 8 };

/* Each byte of distance or sum one higher and one lower; then numbers that a slip would give. */
static void slip(uint8_t *number, int how, size_t bytes)
{
    unsigned value = number[0] + 256u * number[1];
    switch (how) {
    case 0: number[0]++; return;
    case 1: number[0]--; return;
    case 2: number[1]++; return;
    case 3: number[1]--; return;
    case 4: value += (unsigned)(bytes % 256 + bytes / 256 % 256); break; /* the sum with the distance's bytes in it */
    case 5: value += TRAILER; break;                                     /* the distance from the log's end */
    case 6: value = value % 256 * 256 + value / 256; break;              /* high byte first */
    default: value = value / 2 + 1; break;                               /* records counted, or words summed */
    }
    number[0] = (uint8_t)value;
    number[1] = (uint8_t)(value >> 8);
}

/* The lengths that a call is lent. */
struct lengths {
    size_t vram, block, map, line, outcome, log, records;
};

static void wrong_length(struct lengths *l, const struct fault *fault)
{
    switch (fault->kind) {
    case VRAM: l->vram = vram_lens[1 + fault->how]; break;
    case BLOCK: l->block = block_lens[1 + fault->how]; break;
    case MAP: l->map = map_lens[1 + fault->how]; break;
    case LINE_SLICE: l->line = line_lens[1 + fault->how]; break;
    case OUTCOME: l->outcome = outcome_lens[1 + fault->how]; break;
    case LOG:
        l->log = log_lens[fault->how];
        l->records = l->log < TRAILER ? 0 : l->log - TRAILER;
        break;
    case RECORD_BYTES:
        l->records = (int)l->records + records_more[fault->how] < 0 ? 1 : l->records + (size_t)records_more[fault->how];
        break;
    default: break;
    }
}

/* The bytes of a record that is not allowed, among so many. */
static void wrong_record(uint8_t *bytes, size_t count, const struct fault *fault)
{
    size_t last = count / 2 - 1;
    if (fault->kind != RECORD || count < 2) return;
    memcpy(bytes + 2 * (fault->how / BAD == 0 ? 0 : fault->how / BAD == 1 ? last / 2 : last), bad_records[fault->how % BAD], 2);
}

static void wrong_trailer(uint8_t *bytes, size_t count, const struct fault *fault)
{
    if (fault->kind == DISTANCE) slip(bytes + count, fault->how, count);
    if (fault->kind == SUM) slip(bytes + count + 2, fault->how, count);
}

enum call { RUN, READ, WRITE };
static const char *const names[] = { "run_log", "read_log", "write_log" };

/* One call with one fault or two: the earlier number is told, and nothing changes. */
static void refusal(enum call call, const struct fault *f, const struct fault *g)
{
    struct lengths l = { 16384, VDP_BLOCK_SIZE, 2048, 256, 4, GOOD_BYTES + TRAILER, GOOD_BYTES };
    unsigned want = numbers[f->kind] < numbers[g->kind] ? numbers[f->kind] : numbers[g->kind];
    uint32_t got;
    char what[128];
    wrong_length(&l, f), wrong_length(&l, g);
    fill(&now);
    if (f->kind == CONTENTS) spoil(now.lent.block, 1 + f->how);
    if (g->kind == CONTENTS) spoil(now.lent.block, 1 + g->how);
    memset(lent_log, FOREIGN, ROOM);
    memset(lent_records, FOREIGN, ROOM);
    if (call == WRITE) {
        put_good(lent_records, l.records);
        wrong_record(lent_records, l.records, f), wrong_record(lent_records, l.records, g);
    } else if (l.log < TRAILER) {
        memset(lent_log, 0, TRAILER);
    } else {
        size_t bytes = l.log - TRAILER;
        put_good(lent_log, bytes);
        wrong_record(lent_log, bytes, f), wrong_record(lent_log, bytes, g);
        put_trailer(lent_log, bytes);
        wrong_trailer(lent_log, bytes, f), wrong_trailer(lent_log, bytes, g);
    }
    before = now;
    memcpy(log_before, lent_log, ROOM);
    memcpy(records_before, lent_records, ROOM);
    switch (call) {
    case RUN: got = vdp_run_log(now.lent.block, l.block, now.lent.vram, l.vram, now.lent.map, l.map, now.line, l.line, lent_log, l.log, now.outcome, l.outcome); break;
    case READ: got = vdp_read_log(lent_log, l.log, lent_records, l.records); break;
    default: got = vdp_write_log(lent_records, l.records, lent_log, l.log); break;
    }
    snprintf(what, sizeof what, "%s: %s %d with %s %d: answer %u, refusal %u wanted", names[call], kinds[f->kind], f->how, kinds[g->kind], g->how, (unsigned)got, want);
    check(got == want * 256, what);
    check(memcmp(&now, &before, sizeof now) == 0 && memcmp(lent_log, log_before, ROOM) == 0 && memcmp(lent_records, records_before, ROOM) == 0, what);
}

static struct fault faults[128];
static int fault_count;

static void add(enum kind kind, int count)
{
    for (int how = 0; how < count; how++) faults[fault_count++] = (struct fault){ kind, how };
}

/* Each fault alone, and every two at once. */
static void refusals(enum call call)
{
    static const struct fault none = { NONE, 0 };
    fault_count = 0;
    if (call == RUN) add(VRAM, 3), add(BLOCK, BLOCK_LENS - 1), add(MAP, 3), add(LINE_SLICE, 3), add(OUTCOME, 3), add(CONTENTS, WAYS - 1);
    add(LOG, sizeof log_lens / sizeof log_lens[0]);
    if (call != RUN) add(RECORD_BYTES, sizeof records_more / sizeof records_more[0]);
    if (call != WRITE) add(DISTANCE, SLIPS), add(SUM, SLIPS);
    add(RECORD, 3 * BAD);
    for (int i = 0; i < fault_count; i++) {
        refusal(call, &faults[i], &none);
        for (int j = i + 1; j < fault_count; j++)
            if (faults[i].kind != faults[j].kind) refusal(call, &faults[i], &faults[j]);
    }
}

/* Both ends of every bound, in all three calls: one record, or as many as the length has. */
static void bound(const char *what, unsigned want, const uint8_t *record, size_t bytes)
{
    static uint8_t body[ROOM];
    size_t longer = bytes + TRAILER;
    put_good(body, bytes);
    if (record) memcpy(body + (bytes / 2 - 1) * 2, record, 2);
    memset(lent_log, FOREIGN, ROOM);
    memcpy(lent_log, body, bytes);
    put_trailer(lent_log, bytes);
    fill(&now);
    check(VDP_REFUSAL(run(&now, lent_log, longer)) == want, what);
    memset(lent_records, FOREIGN, ROOM);
    check(vdp_read_log(lent_log, longer, lent_records, bytes) == want * 256, what);
    check(want || memcmp(lent_records, body, bytes) == 0, what);
    memcpy(lent_records, body, bytes);
    memset(lent_log, FOREIGN, ROOM);
    check(vdp_write_log(lent_records, bytes, lent_log, longer) == want * 256, what);
}

static void bounds(void)
{
    char what[64];
    for (unsigned operation = 0; operation < 256; operation++)
        for (unsigned value = 0; value < 256; value++) {
            const uint8_t record[2] = { (uint8_t)operation, (uint8_t)value };
            unsigned want = operation > 6 || (operation == 4 && value > 191) || (operation >= 5 && value != 0) ? 9 : 0;
            if (operation > 8 && operation < 255 && value % 85 != 0) continue;
            snprintf(what, sizeof what, "operation %u, value %u", operation, value);
            bound(what, want, record, 2);
        }
    static const size_t lengths[] = { 4, 5, 6, 7, 8, 40002, 40003, 40004, 40005, 40006 };
    for (size_t i = 0; i < sizeof lengths / sizeof lengths[0]; i++) {
        snprintf(what, sizeof what, "a log of %zu bytes", lengths[i]);
        bound(what, lengths[i] % 2 || lengths[i] > LONGEST ? 8 : 0, NULL, lengths[i] - TRAILER);
    }
    const uint8_t seven[2] = { 7, 0 };
    bound("the last of 20,000 records not allowed", 9, seven, LONGEST - TRAILER);
    bound("one record too many, and not allowed", 8, seven, LONGEST - TRAILER + 2);

    /* Bytes behind the trailer: the log is all that is lent. */
    for (size_t more = 1; more <= 6; more++) {
        memset(lent_log, 0, ROOM);
        put_good(lent_log, LONGEST - TRAILER);
        put_trailer(lent_log, LONGEST - TRAILER);
        fill(&now);
        before = now;
        check(run(&now, lent_log, LONGEST + more) == 8 * 256 && memcmp(&now, &before, sizeof now) == 0, "the run of the longest log and more");
        check(vdp_read_log(lent_log, LONGEST + more, lent_records, LONGEST + more - TRAILER) == 8 * 256, "reading the longest log and more");
        check(vdp_read_log(lent_log, LONGEST + more, lent_records, LONGEST - TRAILER) == 8 * 256, "reading the longest log and more, for its records");
    }

    /* Nothing is run before the tests are over, and all records are tested, also those behind a read that differs. */
    const uint8_t late[] = { 0, 0xAA, 2, 0x12, 4, 192 };
    memcpy(lent_log, late, sizeof late);
    put_trailer(lent_log, sizeof late);
    fill(&now);
    before = now;
    check(run(&now, lent_log, sizeof late + TRAILER) == 9 * 256, "a line of 192 behind a read that differs");
    check(memcmp(&now, &before, sizeof now) == 0, "a line of 192 behind a read that differs: nothing is run");
}

/* A file of the samples' folder. */
static size_t load(const char *folder, const char *name, uint8_t *bytes, size_t room)
{
    char path[512];
    snprintf(path, sizeof path, "%s/%s", folder, name);
    FILE *file = fopen(path, "rb");
    if (!file) return 0;
    size_t count = fread(bytes, 1, room, file);
    fclose(file);
    return count;
}

/* A sample log from the sample of text, up to the read that differs: how many first bytes it loses, and the first record
 * that loses one; where none does, the number of records. */
static void sample(const char *folder, const char *name, size_t done, size_t place, unsigned count_lost, size_t loser)
{
    static uint8_t snapshot[VDP_SNAPSHOT_SIZE + 1], log[LONGEST + 1];
    size_t log_len = load(folder, name, log, sizeof log), first = 0;
    fill(&now);
    check(load(folder, "text.snap", snapshot, sizeof snapshot) == VDP_SNAPSHOT_SIZE && log_len > TRAILER && log_len <= LONGEST, name);
    check(vdp_read_snapshot(now.lent.block, VDP_BLOCK_SIZE, now.lent.vram, 16384, snapshot, VDP_SNAPSHOT_SIZE) == 0 && lost() == 0, name);
    if (log_len < TRAILER) return;
    size_t count = (log_len - TRAILER) / 2;
    before = now;
    runs(name, log, count);
    check(memcmp(lent_log, log, log_len) == 0, name);
    check(outcome_is(done, place) && lost() == count_lost, name);
    while (first < count && VDP_REFUSAL(single(&before, log[2 * first], log[2 * first + 1])) == 0 && VDP_LOST(before.lent.block) == 0) first++;
    check(first == loser, name);
}

/* Where the interrupt routine reads status between two control bytes, record 232, the first of them is lost; the second waits
 * in its place, and the data write that follows loses it too. */
static void samples(const char *folder)
{
    sample(folder, "driver.log", 450, 450, 0, 450);
    sample(folder, "interrupted.log", 247, 246, 2, 232);
}

int main(int argc, char **argv)
{
    each_operation();
    losses();
    differing_reads();
    line_slice();
    map_bits();
    random_logs();
    longest();
    round_trips();
    for (int call = RUN; call <= WRITE; call++) refusals((enum call)call);
    bounds();
    samples(argc > 1 ? argv[1] : "samples");
    check(VDP_RECORD_SIZE == 2 && VDP_LOG_TRAILER_SIZE == 4 && VDP_LOG_RECORDS_MAX == 20000 && VDP_LOG_SIZE_MAX == 40004 && VDP_OUTCOME_SIZE == 4, "the sizes in the header");
    check(VDP_LOG_FORM == 8 && VDP_LOG_RECORD == 9, "the refusals in the header");
    return finish("logs");
}
