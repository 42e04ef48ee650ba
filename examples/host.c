/* A small bench host: it runs a driver against the chip, looks at the pictures and says what is wrong.
 *
 *     tests/host/library
 *     gcc -Iinclude examples/host.c target/staticlib/libbirdcleft.a -o host
 *
 * The driver is what would run on the board. It reaches the chip through the control port and the data port alone.
 * The host owns the chip's bytes and the picture's and lends them to each call.
 *
 * 1. Power-up, the driver's opening sequence, and a full draw.
 * 2. An interrupt, in which the driver moves a sprite and writes a name. The bench's pointer finds the new colour, and what
 *    it comes from, before anything is drawn. A refresh redraws the lines that this touches; a full draw into a second
 *    picture has to give the same.
 * 3. The driver scrolls, and the picture is held against the wanted one. A driver that leaves an old row standing
 *    is caught.
 * 4. An interrupt comes while the driver writes a pair of control bytes. A driver that does not hold it off until the
 *    pair is complete is caught: the interrupt routine reads status, which drops the first byte, and the chip counts it. */
#include <stdio.h>
#include <string.h>

#include "birdcleft.h"

enum { LINES = VDP_LINES, PIXELS = VDP_LINE_SIZE };

/* What a chip has: its state, its memory, and which bytes of it were written since the last draw. */
struct chip {
    uint8_t block[VDP_BLOCK_SIZE];
    uint8_t vram[VDP_VRAM_SIZE];
    uint8_t map[VDP_MAP_SIZE];
};

/* What is drawn: a colour for each pixel, and a note on the sprites of each line. */
struct picture {
    uint8_t frame[VDP_FRAME_SIZE];
    uint8_t notes[VDP_NOTES_SIZE];
};

static int trouble;

/* Every call answers a refusal number and a value. Nothing wrong is lent below, so a refusal is an error here. */
static uint8_t value(uint32_t answer)
{
    if (VDP_REFUSAL(answer) != VDP_ACCEPTED) {
        printf("refused with %u\n", (unsigned)VDP_REFUSAL(answer));
        trouble = 1;
    }
    return VDP_VALUE(answer);
}

/* The board's processor. It takes an interrupt behind any control byte, unless the driver holds interrupts off. */

static int interrupts_off;       /* the driver holds interrupts off */
static int bytes_to_display_end; /* the display ends behind so many more control bytes; 0: not while the driver writes */

static void on_interrupt(struct chip *c);

static void end_of_display(struct chip *c)
{
    value(vdp_end_of_display(c->block, sizeof c->block));
}

/* A first byte that waited is lost to the interrupt routine's status read. */
static void take_interrupt(struct chip *c)
{
    unsigned lost = VDP_LOST(c->block);
    if (interrupts_off || value(vdp_interrupt_line(c->block, sizeof c->block)) == 0)
        return;
    on_interrupt(c);
    if (VDP_LOST(c->block) > lost)
        printf("the interrupt routine read status between two control bytes\n");
}

static void disable_interrupts(void)
{
    interrupts_off = 1;
}

/* An interrupt that was held off comes now. */
static void enable_interrupts(struct chip *c)
{
    interrupts_off = 0;
    take_interrupt(c);
}

/* The ports, as the board's processor sees them. */

static void write_control(struct chip *c, uint8_t byte)
{
    value(vdp_control_write(c->block, sizeof c->block, c->vram, sizeof c->vram, byte));
    if (bytes_to_display_end > 0 && --bytes_to_display_end == 0)
        end_of_display(c);
    take_interrupt(c);
}

static void write_data(struct chip *c, uint8_t byte)
{
    value(vdp_data_write(c->block, sizeof c->block, c->vram, sizeof c->vram, c->map, sizeof c->map, byte));
}

static uint8_t read_data(struct chip *c)
{
    return value(vdp_data_read(c->block, sizeof c->block, c->vram, sizeof c->vram));
}

static uint8_t read_status(struct chip *c)
{
    return value(vdp_status_read(c->block, sizeof c->block));
}

/* The driver: Graphics I, one sprite of 16 by 16. */

enum { SPRITE_PATTERNS = 0x0000, PATTERNS = 0x0800, ATTRIBUTES = 0x1000, NAMES = 0x1400, COLOURS = 0x2000 };
enum { ROWS = 24, COLUMNS = 32 };

static void set_register(struct chip *c, int number, uint8_t byte)
{
    write_control(c, byte);
    write_control(c, (uint8_t)(0x80 | number));
}

static void write_from(struct chip *c, int address)
{
    write_control(c, (uint8_t)(address % 256));
    write_control(c, (uint8_t)(0x40 | address / 256));
}

static void read_from(struct chip *c, int address)
{
    write_control(c, (uint8_t)(address % 256));
    write_control(c, (uint8_t)(address / 256));
}

/* The name in a cell of the driver's screen: slanting stripes of three shapes. */
static uint8_t name_at(int row, int column)
{
    return (uint8_t)((row + column) % 5 == 0 ? 1 + row % 3 : 0);
}

static void open_screen(struct chip *c)
{
    /* Display on, interrupts on, sprites of 16 by 16; the tables as above; backdrop 4. */
    static const uint8_t registers[8] = { 0x00, 0xE2, 0x05, 0x80, 0x01, 0x20, 0x00, 0x04 };
    static const uint8_t patterns[4][8] = {
        { 0x00, 0x00, 0x00, 0x00, 0x00, 0x00, 0x00, 0x00 },
        { 0xFF, 0x81, 0x81, 0x81, 0x81, 0x81, 0x81, 0xFF },
        { 0x18, 0x3C, 0x7E, 0xFF, 0xFF, 0x7E, 0x3C, 0x18 },
        { 0xAA, 0x55, 0xAA, 0x55, 0xAA, 0x55, 0xAA, 0x55 },
    };
    /* Y, X, name, colour; the next Y, 208, ends the list. The sprite shows from line Y + 1 on. */
    static const uint8_t sprites[5] = { 79, 100, 0, 9, 208 };
    int i, row, column;
    read_status(c); /* no first control byte waits after this */
    for (i = 0; i < 8; i++)
        set_register(c, i, registers[i]);
    write_from(c, PATTERNS);
    for (i = 0; i < 32; i++)
        write_data(c, patterns[i / 8][i % 8]);
    write_from(c, COLOURS);
    for (i = 0; i < 32; i++)
        write_data(c, 0xF1);
    write_from(c, NAMES);
    for (row = 0; row < ROWS; row++)
        for (column = 0; column < COLUMNS; column++)
            write_data(c, name_at(row, column));
    write_from(c, SPRITE_PATTERNS);
    for (i = 0; i < 32; i++)
        write_data(c, 0xFF);
    write_from(c, ATTRIBUTES);
    for (i = 0; i < 5; i++)
        write_data(c, sprites[i]);
}

/* The interrupt routine. Reading status ends the interrupt. */
static void on_interrupt(struct chip *c)
{
    read_status(c);
    write_from(c, ATTRIBUTES + 1); /* the sprite's X */
    write_data(c, 120);
    write_from(c, NAMES + 3 * COLUMNS + 7);
    write_data(c, 2);
}

/* Another backdrop, while the display runs. Interrupts are held off from its first control byte to its second. */
static void set_backdrop(struct chip *c, uint8_t colour, int hold_off)
{
    if (hold_off) /* the planted fault: they are left on */
        disable_interrupts();
    set_register(c, 7, colour);
    if (hold_off)
        enable_interrupts(c);
}

/* Scrolls up by a row: each row is read and written one higher, and the last one cleared. */
static void scroll(struct chip *c, int clear_last_row)
{
    uint8_t names[COLUMNS];
    int row, column;
    for (row = 1; row < ROWS; row++) {
        read_from(c, NAMES + row * COLUMNS);
        for (column = 0; column < COLUMNS; column++)
            names[column] = read_data(c);
        write_from(c, NAMES + (row - 1) * COLUMNS);
        for (column = 0; column < COLUMNS; column++)
            write_data(c, names[column]);
    }
    if (!clear_last_row)
        return; /* the planted fault: the old last row is left standing */
    write_from(c, NAMES + (ROWS - 1) * COLUMNS);
    for (column = 0; column < COLUMNS; column++)
        write_data(c, 0);
}

/* The host. */

static void power_up(struct chip *c)
{
    value(vdp_power_up(c->block, sizeof c->block, c->vram, sizeof c->vram));
    memset(c->map, 0, sizeof c->map);
}

/* The colour under the bench's pointer, from the chip as it is now. Nothing is drawn and status stays, so that the driver
 * does not notice. */
static int colour_at(const struct chip *c, int line, int column)
{
    return value(vdp_point(c->block, sizeof c->block, c->vram, sizeof c->vram, (uint32_t)line, (uint32_t)column));
}

/* What the colour under the pointer comes from, in words. */
static const char *origin_at(const struct chip *c, int line, int column)
{
    static char sprite[16];
    int origin = value(vdp_origin(c->block, sizeof c->block, c->vram, sizeof c->vram, (uint32_t)line, (uint32_t)column));
    switch (origin) {
    case VDP_ORIGIN_PATTERN:
        return "the pattern plane";
    case VDP_ORIGIN_BACKDROP:
        return "the backdrop";
    case VDP_ORIGIN_BLACK:
        return "no plane: black by default";
    case VDP_ORIGIN_EXTERNAL:
        return "external video";
    default:
        snprintf(sprite, sizeof sprite, "sprite %d", origin);
        return sprite;
    }
}

/* Draws every line. */
static void full_draw(struct chip *c, struct picture *p)
{
    value(vdp_full_draw(c->block, sizeof c->block, c->vram, sizeof c->vram, c->map, sizeof c->map,
                        p->frame, sizeof p->frame, p->notes, sizeof p->notes));
}

/* Redraws what has changed in the picture that was drawn last, and gives the number of lines. */
static int refresh(struct chip *c, struct picture *p)
{
    return value(vdp_refresh(c->block, sizeof c->block, c->vram, sizeof c->vram, c->map, sizeof c->map,
                             p->frame, sizeof p->frame, p->notes, sizeof p->notes));
}

static int line_differs(const struct picture *a, const struct picture *b, int line)
{
    return a->notes[line] != b->notes[line] || memcmp(a->frame + PIXELS * line, b->frame + PIXELS * line, PIXELS) != 0;
}

/* Prints the ranges of lines in which a picture is not the one wanted, and gives the number of lines. */
static int compare(const struct picture *got, const struct picture *wanted, const char *name)
{
    int line = 0, count = 0;
    while (line < LINES) {
        int first = line, x = 0;
        while (line < LINES && line_differs(got, wanted, line))
            line++;
        if (line == first) {
            line++;
            continue;
        }
        count += line - first;
        printf("  against %s: lines %d-%d differ", name, first, line - 1);
        while (x < PIXELS && got->frame[PIXELS * first + x] == wanted->frame[PIXELS * first + x])
            x++;
        if (x < PIXELS)
            printf("; line %d, column %d has colour %d, wanted %d", first, x, got->frame[PIXELS * first + x],
                   wanted->frame[PIXELS * first + x]);
        printf("\n");
    }
    if (count == 0)
        printf("  against %s: no line differs\n", name);
    return count;
}

/* A full draw into a second picture. It works on a copy of the chip, because it clears the map and changes status. */
static int compare_with_full_draw(const struct chip *c, const struct picture *p)
{
    static struct chip copy;
    static struct picture whole;
    copy = *c;
    memset(&whole, 0xEE, sizeof whole); /* no colour and no note: every byte has to be drawn */
    full_draw(&copy, &whole);
    return compare(p, &whole, "a full draw");
}

/* Runs a scroll from the opening on, and holds it against a chip whose names were written as they should end. */
static int compare_scroll(const char *driver, int clear_last_row)
{
    static struct chip bench, right;
    static struct picture shown, wanted;
    int row, column;
    power_up(&bench);
    open_screen(&bench);
    full_draw(&bench, &shown);
    scroll(&bench, clear_last_row);
    printf("%s: refresh redrew %d lines\n", driver, refresh(&bench, &shown));
    if (compare_with_full_draw(&bench, &shown) != 0)
        trouble = 1;

    power_up(&right);
    open_screen(&right);
    write_from(&right, NAMES);
    for (row = 1; row <= ROWS; row++)
        for (column = 0; column < COLUMNS; column++)
            write_data(&right, row < ROWS ? name_at(row, column) : 0);
    full_draw(&right, &wanted);
    return compare(&shown, &wanted, "the wanted picture");
}

/* The display ends between the two control bytes that set the backdrop. Gives how many first bytes were lost. (The second
 * byte may wait as a first one then, and be the next to be lost.) */
static unsigned interrupt_pair(const char *driver, int hold_off)
{
    static struct chip bench;
    power_up(&bench);
    open_screen(&bench);
    bytes_to_display_end = 1;
    set_backdrop(&bench, 6, hold_off);
    printf("%s: register 7 is %d, first bytes lost: %u\n", driver, bench.block[7], VDP_LOST(bench.block));
    return VDP_LOST(bench.block);
}

int main(void)
{
    static struct chip bench;
    static struct picture shown;

    power_up(&bench);
    open_screen(&bench);
    full_draw(&bench, &shown);
    printf("opening: line 80, column 100 has colour %d, from %s\n", shown.frame[PIXELS * 80 + 100],
           origin_at(&bench, 80, 100));

    end_of_display(&bench);
    take_interrupt(&bench);
    printf("interrupt: line 80, column 100 has colour %d in the picture, the pointer finds %d, from %s\n",
           shown.frame[PIXELS * 80 + 100], colour_at(&bench, 80, 100), origin_at(&bench, 80, 100));
    printf("interrupt: refresh redrew %d lines\n", refresh(&bench, &shown));
    if (shown.frame[PIXELS * 80 + 100] != colour_at(&bench, 80, 100))
        trouble = 1;
    if (compare_with_full_draw(&bench, &shown) != 0)
        trouble = 1;

    if (compare_scroll("right scroll", 1) != 0)
        trouble = 1;
    if (compare_scroll("scroll that forgets the last row", 0) == 0)
        trouble = 1;

    if (interrupt_pair("backdrop, interrupts held off", 1) != 0)
        trouble = 1;
    if (interrupt_pair("backdrop, interrupts left on", 0) != 1)
        trouble = 1;
    printf(trouble ? "something is wrong\n" : "the driver's faults were caught\n");
    return trouble;
}
