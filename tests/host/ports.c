/* The port calls from C: what they do, which of them count a lost first byte, each refusal number, the right one when
 * two apply at once, and nothing changed after a refusal. */
#include "check.h"

enum call { POWER_UP, CONTROL_WRITE, DATA_WRITE, DATA_READ, STATUS_READ, END_OF_DISPLAY, INTERRUPT_LINE, RESET, CALLS };

static const char *const names[CALLS] = {
    "power_up", "control_write", "data_write", "data_read", "status_read", "end_of_display", "interrupt_line", "reset"
};
static const int takes_vram[CALLS] = { 1, 1, 1, 1, 0, 0, 0, 0 };
static const int takes_map[CALLS] = { 0, 0, 1, 0, 0, 0, 0, 0 };
static const int tests_contents[CALLS] = { 0, 1, 1, 1, 1, 1, 1, 1 };

static struct lent now, before;

static uint32_t make(enum call call, size_t block_len, size_t vram_len, size_t map_len)
{
    switch (call) {
    case POWER_UP: return vdp_power_up(now.block, block_len, now.vram, vram_len);
    case CONTROL_WRITE: return vdp_control_write(now.block, block_len, now.vram, vram_len, 0x82);
    case DATA_WRITE: return vdp_data_write(now.block, block_len, now.vram, vram_len, now.map, map_len, 0xAA);
    case DATA_READ: return vdp_data_read(now.block, block_len, now.vram, vram_len);
    case STATUS_READ: return vdp_status_read(now.block, block_len);
    case END_OF_DISPLAY: return vdp_end_of_display(now.block, block_len);
    case INTERRUPT_LINE: return vdp_interrupt_line(now.block, block_len);
    default: return vdp_reset(now.block, block_len);
    }
}

/* A state in which every call would change something: a first byte waits, and the count of lost ones is hex 2B67. */
static void fill(void)
{
    static const uint8_t block[VDP_BLOCK_SIZE] = { 0x02, 0xE0, 0x05, 0x80, 0x01, 0x20, 0x03, 0xF1, 0x34, 0x12, 0x99, 1, 0xFF, 0xDF, 0, 0x67, 0x2B };
    size_t i;
    for (i = 0; i < sizeof now.vram; i++) now.vram[i] = (uint8_t)(i * 7 + i / 256 + 1);
    for (i = 0; i < sizeof now.map; i++) now.map[i] = (uint8_t)(i % 3);
    memcpy(now.block, block, sizeof block);
    now.block[VDP_BLOCK_SIZE] = 0x77;
}

/* The bytes behind each slice are those that were lent. */
static int behind_kept(void)
{
    return now.block[VDP_BLOCK_SIZE] == before.block[VDP_BLOCK_SIZE] && now.vram[VDP_VRAM_SIZE] == before.vram[VDP_VRAM_SIZE] && now.map[VDP_MAP_SIZE] == before.map[VDP_MAP_SIZE];
}

/* Every combination of lengths and contents: the first test that fails, in the order 1, 2, 3, decides. */
static void refusals(enum call call)
{
    for (int v = 0; v < (takes_vram[call] ? 4 : 1); v++)
        for (int m = 0; m < (takes_map[call] ? 4 : 1); m++)
            for (int b = 0; b < BLOCK_LENS; b++)
                for (int way = 0; way < WAYS; way++) {
                    unsigned want = v ? VDP_VRAM_LENGTH : m || b ? VDP_SLICE_LENGTH : way && tests_contents[call] ? VDP_ILL_FORMED : VDP_ACCEPTED;
                    char what[128];
                    fill();
                    spoil(now.block, way);
                    before = now;
                    uint32_t got = make(call, block_lens[b], vram_lens[v], map_lens[m]);
                    snprintf(what, sizeof what, "%s: vram %zu, map %zu, block %zu, contents %d: answer %u, refusal %u wanted", names[call], vram_lens[v], map_lens[m], block_lens[b], way, (unsigned)got, want);
                    check(want ? got == want * 256 : VDP_REFUSAL(got) == 0, what);
                    check(want ? memcmp(&now, &before, sizeof now) == 0 : behind_kept(), what);
                }
}

static uint32_t control(uint8_t byte) { return vdp_control_write(now.block, VDP_BLOCK_SIZE, now.vram, 16384, byte); }
static uint32_t write_data(uint8_t byte) { return vdp_data_write(now.block, VDP_BLOCK_SIZE, now.vram, 16384, now.map, 2048, byte); }
static uint32_t read_data(void) { return vdp_data_read(now.block, VDP_BLOCK_SIZE, now.vram, 16384); }
static uint32_t read_status(void) { return vdp_status_read(now.block, VDP_BLOCK_SIZE); }
static unsigned address(void) { return now.block[8] + 256u * now.block[9]; }

/* What accepted calls do, by the sequences of the manual and of the guide. */
static void operations(void)
{
    static const uint8_t at_power_up[VDP_BLOCK_SIZE] = { 0, 0, 0, 0, 0, 0, 0, 0, 0, 0, 0, 0, 0, 0, 1, 0, 0 };
    size_t i, nonzero = 0;
    fill();
    check(vdp_power_up(now.block, VDP_BLOCK_SIZE, now.vram, 16384) == 0, "power-up is accepted");
    check(memcmp(now.block, at_power_up, VDP_BLOCK_SIZE) == 0, "the state at power-up");
    for (i = 0; i < 16384; i++) nonzero += now.vram[i] != 0;
    check(nonzero == 0, "VRAM is zero at power-up");
    memset(now.map, 0, sizeof now.map);

    control(0x42), control(0x40);
    check(address() == 0x42 && write_data(0xAA) == 0, "set-up for writing");
    check(now.vram[0x42] == 0xAA && now.block[10] == 0xAA && address() == 0x43, "a data write");
    check(now.map[8] == 4, "its map bit");
    control(0xFF), control(0x7F), write_data(0x11);
    check(now.vram[0x3FFF] == 0x11 && address() == 0, "the address goes from 16,383 to 0");
    control(0xFF), control(0x3F);
    check(now.block[10] == 0x11 && address() == 0, "set-up for reading fetches, and steps");
    now.vram[0] = 0x22;
    check(read_data() == 0x11 && now.block[10] == 0x22 && address() == 1, "a data read");

    now.block[14] = 0;
    control(0xFF), control(0x82);
    check(now.block[2] == 0x0F && address() == 0x02FF && now.block[14] == 1, "a register write");
    now.block[14] = 0;
    control(0xFF), control(0x82);
    check(now.block[14] == 0, "a register write of the kept byte");
    control(0xFF);
    check(now.block[11] == 1 && now.block[12] == 0xFF, "a first byte waits");
    read_status();
    control(0x07);
    check(now.block[11] == 1 && now.block[12] == 0x07, "a status read drops the first byte");
    read_data();
    check(now.block[11] == 0 && now.block[12] == 0, "so does a data read");

    now.block[13] = 0x4C;
    check(read_status() == 0x4C && now.block[13] == 0x0C, "a status read clears the flags alone");
    check(vdp_interrupt_line(now.block, VDP_BLOCK_SIZE) == 0, "the interrupt line is off");
    now.block[1] = 0x20;
    check(vdp_end_of_display(now.block, VDP_BLOCK_SIZE) == 0 && now.block[13] == 0x8C, "the end of active display");
    check(vdp_interrupt_line(now.block, VDP_BLOCK_SIZE) == 1, "the interrupt line is on");
    now.block[0] = 0x03;
    control(0x55);
    check(vdp_reset(now.block, VDP_BLOCK_SIZE) == 0 && now.block[0] == 0 && now.block[1] == 0 && now.block[2] == 0x0F && now.block[11] == 0 && now.block[13] == 0 && now.block[14] == 1, "reset");
}

static unsigned lost(void) { return now.block[15] + 256u * now.block[16]; }

/* The calls that lose a first byte and those that do not, from power-up on. */
static void losses(void)
{
    fill();
    vdp_power_up(now.block, VDP_BLOCK_SIZE, now.vram, 16384);
    check(lost() == 0, "power-up, with a first byte waiting: none lost");
    read_status(), read_data(), write_data(1);
    check(lost() == 0, "none waits: none is lost");
    control(0xFF), read_status();
    check(lost() == 1, "a status read loses a first byte");
    control(0x07);
    check(lost() == 1 && now.block[11] == 1 && now.block[12] == 0x07, "the next byte waits, and is not lost");
    read_data();
    check(lost() == 2, "a data read loses a first byte");
    read_data(), read_status();
    check(lost() == 2, "a byte is lost once");
    control(0x42), write_data(0xAA);
    check(lost() == 3, "a data write loses a first byte");
    write_data(0xAB);
    check(lost() == 3, "a second data write loses none");

    control(0x42), control(0x40), control(0x42), control(0x00), control(0x05), control(0x87);
    check(lost() == 3 && now.block[7] == 5 && now.block[11] == 0, "pairs of each kind lose none");
    now.block[1] = 0x20;
    control(0x42);
    vdp_end_of_display(now.block, VDP_BLOCK_SIZE);
    check(lost() == 3 && now.block[11] == 1, "nor does the end of active display");
    check(vdp_interrupt_line(now.block, VDP_BLOCK_SIZE) == 1 && lost() == 3 && now.block[11] == 1, "nor asking for the interrupt line");
    read_status();
    check(lost() == 4, "the interrupt routine's status read does");

    control(0x42), vdp_reset(now.block, VDP_BLOCK_SIZE);
    check(lost() == 0 && now.block[11] == 0, "reset, with a first byte waiting: none lost");
    put_lost(now.block, 7), vdp_reset(now.block, VDP_BLOCK_SIZE);
    check(lost() == 0, "reset with none waiting");
    put_lost(now.block, 65535), vdp_power_up(now.block, VDP_BLOCK_SIZE, now.vram, 16384);
    check(lost() == 0, "power-up with none waiting");

    put_lost(now.block, 255), control(0x42), read_status();
    check(now.block[15] == 0 && now.block[16] == 1, "from 255 to 256");
    put_lost(now.block, 65534), control(0x42), read_data();
    check(now.block[15] == 255 && now.block[16] == 255, "from 65,534 to 65,535");
    control(0x42), read_status(), control(0x42), read_data(), control(0x42), write_data(0);
    check(now.block[15] == 255 && now.block[16] == 255 && now.block[11] == 0, "65,535 stays");
}

static unsigned lost_after(enum call call, int waiting, unsigned count)
{
    switch (call) {
    case POWER_UP: case RESET: return 0;
    case DATA_WRITE: case DATA_READ: case STATUS_READ: return waiting && count < 65535 ? count + 1 : count;
    default: return count;
    }
}

/* Each call from every count, which are all well-formed: answer and effect are those from count 0, but for the count. */
static void every_count(enum call call, int waiting)
{
    uint8_t start[sizeof now.block];
    unsigned wrong = 0;
    char what[128];
    fill();
    if (!waiting) now.block[11] = now.block[12] = 0;
    memcpy(start, now.block, sizeof start);
    put_lost(now.block, 0);
    uint32_t answer = make(call, VDP_BLOCK_SIZE, 16384, 2048);
    before = now;
    /* A second call writes the same bytes once more. Power-up takes long, so it has fewer turns. */
    for (unsigned count = 0; count < 65536; count += call == POWER_UP ? 255 : 1) {
        memcpy(now.block, start, sizeof start);
        put_lost(now.block, count);
        put_lost(before.block, lost_after(call, waiting, count));
        wrong += make(call, VDP_BLOCK_SIZE, 16384, 2048) != answer || memcmp(now.block, before.block, sizeof now.block) != 0;
    }
    snprintf(what, sizeof what, "%s, waiting %d: %u counts of lost first bytes wrong", names[call], waiting, wrong);
    check(VDP_REFUSAL(answer) == 0 && wrong == 0 && memcmp(&now, &before, sizeof now) == 0, what);
}

/* The header's name for the count. */
static void header(void)
{
    const uint8_t *block = now.block;
    unsigned wrong = 0;
    for (unsigned count = 0; count < 65536; count++) {
        put_lost(now.block, count);
        wrong += VDP_LOST(now.block) != count || VDP_LOST(block) != count || VDP_LOST(block + 0) / 256 != count / 256;
    }
    check(wrong == 0, "VDP_LOST");
    check(VDP_BLOCK_SIZE == 17, "the block's size in the header");
}

int main(void)
{
    for (int call = 0; call < CALLS; call++) refusals((enum call)call);
    operations();
    losses();
    for (int call = 0; call < CALLS; call++) every_count((enum call)call, 0), every_count((enum call)call, 1);
    header();
    return finish("ports");
}
