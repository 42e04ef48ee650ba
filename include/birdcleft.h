/* Birdcleft: a proved model of the TMS9918A video display processor. examples/host.c shows it in use.
 *
 * The caller owns every byte. A call on the chip finds its state in a block of 17 bytes; reading and writing a log's
 * records needs none. Each call answers a number of two parts: its refusal number times 256, and below that what it
 * has to tell: a byte that was read, 1 for an interrupt line that is on, a point's colour or its origin, the count of
 * lines that a refresh redrew, the byte that a log's run found in place of the expected one, and 0 otherwise. A call that
 * is refused leaves block and slices as they were. Slices of one call do not overlap, and no pointer is null, also where a
 * length is 0. */
#ifndef BIRDCLEFT_H
#define BIRDCLEFT_H

#include <stddef.h>
#include <stdint.h>

#ifdef __cplusplus
extern "C" {
#endif

/* How many bytes each slice has. */
enum {
    VDP_BLOCK_SIZE = 17,
    VDP_VRAM_SIZE = 16384,
    VDP_MAP_SIZE = 2048,
    VDP_LINE_SIZE = 256,
    VDP_ORIGINS_SIZE = 256,
    VDP_FRAME_SIZE = 49152,
    VDP_NOTES_SIZE = 192,
    VDP_SNAPSHOT_SIZE = 16406,
    VDP_OUTCOME_SIZE = 4
};

/* How many lines a frame has. */
enum { VDP_LINES = 192 };

/* A log has 0 to 20,000 records of two bytes and then a trailer: 4 to 40,004 bytes, an even number. Its record bytes are
 * all but the trailer. */
enum {
    VDP_RECORD_SIZE = 2,
    VDP_LOG_TRAILER_SIZE = 4,
    VDP_LOG_RECORDS_MAX = 20000,
    VDP_LOG_SIZE_MAX = 40004
};

/* Refusal numbers. Where several fit, the answer is the earliest of 1, 2, 5, 6, 7, 3, 4, 13, 8, 9. */
enum {
    VDP_ACCEPTED = 0,
    VDP_VRAM_LENGTH = 1,     /* VRAM slice not 16,384 bytes */
    VDP_SLICE_LENGTH = 2,    /* another slice of wrong length, but for snapshot, log and record bytes */
    VDP_ILL_FORMED = 3,      /* the block holds no well-formed state */
    VDP_LINE_NUMBER = 4,     /* line number above 191; in a log's record that is 9 */
    VDP_SNAPSHOT_LENGTH = 5, /* snapshot slice not 16,406 bytes */
    VDP_TRAILER = 6,         /* trailer's signature or a distance wrong */
    VDP_CHECKSUM = 7,        /* snapshot sum wrong */
    VDP_LOG_FORM = 8,        /* log or record bytes of wrong length, or the log's trailer wrong */
    VDP_LOG_RECORD = 9,      /* a record that is not allowed: its operation, or its value for that operation */
    VDP_COLUMN_NUMBER = 13   /* column above 255 */
};

/* Origins: what gave a pixel its colour, one code each. 0 to 31 are the sprites, by their numbers in the attribute table;
 * a sprite of colour 0 does not show and is no origin. The last three are for pixels where neither sprite nor pattern
 * shows, as in Text's margins and while the display is off. */
enum {
    VDP_ORIGIN_PATTERN = 32,  /* the pattern plane; in Text also a 0 bit, if the backdrop's colour, which it has, is not 0 */
    VDP_ORIGIN_BACKDROP = 33, /* the backdrop: register 7's low nibble is not 0 */
    VDP_ORIGIN_BLACK = 34,    /* black by default, colour 1: that nibble is 0 and external video is off */
    VDP_ORIGIN_EXTERNAL = 35  /* external video, colour 0: that nibble is 0 and external video is on */
};

/* The parts of an answer. */
#define VDP_REFUSAL(answer) ((answer) / 256u)
#define VDP_VALUE(answer) ((uint8_t)((answer) % 256u))

/* The block: eight registers; the address, low byte first; the read buffer; 1 while a first control
 * byte waits, else 0; that byte, else 0; status; the redraw mark as 0 or 1; the count of lost first bytes,
 * low byte first.
 *
 * The map: bit i mod 8, from the least significant, of byte i / 8 is set once VRAM byte i has been written
 * through the data port. It may start with any bytes, because power-up sets the redraw mark. */

/* The count of lost first bytes in a block, 0 to 65,535, as unsigned; the ports, below, tell what counts. The argument
 * is evaluated twice. */
#define VDP_LOST(block) ((block)[15] + 256u * (block)[16])

/* The state becomes that of power-up, and VRAM is filled with zeros. The block may hold anything. */
uint32_t vdp_power_up(uint8_t *block, size_t block_len, uint8_t *vram, size_t vram_len);

/* The ports. The address is 0 to 16,383 and steps from 16,383 to 0. A first control byte that waits is dropped by a
 * data write, a data read, a status read and reset; power-up and reading a snapshot replace the whole state.
 *
 * The count of lost first bytes tells of a driver whose control pairs are cut in two, as by an interrupt routine that
 * reads status between the two bytes. A data write, a data read and a status read that drop a first byte count it, up
 * to 65,535. Reset, power-up and reading a snapshot set the count to 0. No other call changes it, but the run of a log
 * does what its single calls do. */

/* A byte to the control port. With none waiting it waits, and nothing else changes. With byte a waiting, byte b
 * completes the pair: the address becomes (b mod 64) * 256 + a, also where a register is written. From hex 80 on
 * register b mod 8 takes a, less the bits that it does not keep; if that alters it the redraw mark is set. Below
 * hex 40 the read buffer takes VRAM at the address, which steps. */
uint32_t vdp_control_write(uint8_t *block, size_t block_len, const uint8_t *vram, size_t vram_len, uint8_t byte);

/* A byte to the data port: VRAM at the address and the read buffer take it, its bit of the map is set, also where
 * VRAM held the same byte, and the address steps. */
uint32_t vdp_data_write(uint8_t *block, size_t block_len, uint8_t *vram, size_t vram_len, uint8_t *map, size_t map_len, uint8_t byte);

/* A byte from the data port: answers the read buffer, which then takes VRAM at the address; the address steps. */
uint32_t vdp_data_read(uint8_t *block, size_t block_len, const uint8_t *vram, size_t vram_len);

/* Answers status, and then clears its flags: frame (hex 80), fifth sprite (40) and coincidence (20). The low five
 * bits keep what they held, with the fifth-sprite flag clear too. */
uint32_t vdp_status_read(uint8_t *block, size_t block_len);

/* The end of active display: sets the frame flag, which no draw does. */
uint32_t vdp_end_of_display(uint8_t *block, size_t block_len);

/* Whether the interrupt line is on: the frame flag is, and register 1 has hex 20. */
uint32_t vdp_interrupt_line(const uint8_t *block, size_t block_len);

/* Draws line number 0 to 191 into 256 bytes, one colour (0 to 15) each, and the origin of each into 256 others. The
 * line's note (below) updates status: a fifth sprite sets hex 40 and puts its number into the low five bits, unless
 * hex 40 or 80 is set already; coincidence sets hex 20. Two of the line's first four sprites coincide where set bits
 * share a column, on the screen or beside it, whatever their colours. Map, redraw mark and any frame stay as they are. */
uint32_t vdp_draw_line(uint8_t *block, size_t block_len, const uint8_t *vram, size_t vram_len, uint8_t *line, size_t line_len, uint8_t *origins, size_t origins_len, uint32_t number);

/* The colour (0 to 15) of the point at line 0 to 191 and column 0 to 255: the byte that drawing this line would put
 * there. Nothing is drawn, and status stays as it is. Of VRAM it needs the cell that the point lies in and what the
 * line's sprites fetch, and no other byte. */
uint32_t vdp_point(const uint8_t *block, size_t block_len, const uint8_t *vram, size_t vram_len, uint32_t line, uint32_t column);

/* The origin of that point's colour, by the same tests and from the same bytes. A refused call has 0 below the refusal
 * number, as an accepted one has for sprite 0: look at the refusal number first. */
uint32_t vdp_origin(const uint8_t *block, size_t block_len, const uint8_t *vram, size_t vram_len, uint32_t line, uint32_t column);

/* A frame has lines 0 to 191 end to end. Each line has a note: the number of its fifth sprite, or 32 if
 * there is none, plus 64 if sprites coincide.
 *
 * Where the host changes VRAM itself, the map does not tell; a full draw does not need it. */

/* Full draw: every line into the frame, and its note. The notes update status, in order; map and redraw mark are
 * cleared. */
uint32_t vdp_full_draw(uint8_t *block, size_t block_len, const uint8_t *vram, size_t vram_len, uint8_t *map, size_t map_len, uint8_t *frame, size_t frame_len, uint8_t *notes, size_t notes_len);

/* Refresh: redraws the lines that are due and answers how many. With the redraw mark set all are, else those
 * that fetch a byte whose bit the map has. A line that is not due keeps whatever frame and notes were lent. All
 * notes update status, in order; map and redraw mark are cleared.
 *
 * It leaves what a full draw would, if frame and notes come from an unbroken chain of draws: the chain began with a
 * full draw, or with a refresh while the redraw mark was set, each refresh since was lent the frame and notes that
 * the draw before it left, and between them block, VRAM and map were changed by these calls alone. Where a host
 * changes one of them itself, or draws into another frame with the same map, it begins a new chain. */
uint32_t vdp_refresh(uint8_t *block, size_t block_len, const uint8_t *vram, size_t vram_len, uint8_t *map, size_t map_len, uint8_t *frame, size_t frame_len, uint8_t *notes, size_t notes_len);

/* Reset: registers 0 and 1, status and the count of lost first bytes become 0, a first byte no longer waits, and the
 * redraw mark is set. Registers 2 to 7, address and read buffer stay. */
uint32_t vdp_reset(uint8_t *block, size_t block_len);

/* The snapshot: 16,384 bytes of VRAM; the first 14 bytes of the block, which are all but the redraw mark and the count
 * of lost first bytes; and a trailer of eight bytes, numbers low byte first:
 *   16398  56 31 (hex), the signature
 *   16400  0E 00        how far those bytes stand before the trailer: 14
 *   16402  0E 40        how far VRAM stands before it: 16,398
 *   16404  the sum of the 16,404 bytes before it, these six of the trailer among them, modulo 65,536
 * At power-up the trailer is 56 31 0E 00 0E 40 E3 00. */

/* State and VRAM from a snapshot, with the redraw mark set and the count of lost first bytes 0. The block may hold
 * anything, and VDP_ILL_FORMED speaks of the snapshot. */
uint32_t vdp_read_snapshot(uint8_t *block, size_t block_len, uint8_t *vram, size_t vram_len, const uint8_t *snapshot, size_t snapshot_len);

/* A snapshot of VRAM and state, without the redraw mark and the count of lost first bytes. */
uint32_t vdp_write_snapshot(const uint8_t *block, size_t block_len, const uint8_t *vram, size_t vram_len, uint8_t *snapshot, size_t snapshot_len);

/* The log: calls that a driver and its bench made, to be made again. A record is a byte for the operation and one for its
 * value. Operations above 6 and other values than these are not allowed: */
enum {
    VDP_LOG_DATA_WRITE = 0,     /* the byte to write */
    VDP_LOG_CONTROL_WRITE = 1,  /* the byte to write */
    VDP_LOG_DATA_READ = 2,      /* the byte that is expected */
    VDP_LOG_STATUS_READ = 3,    /* the byte that is expected */
    VDP_LOG_DRAW_LINE = 4,      /* the line's number, 0 to 191 */
    VDP_LOG_END_OF_DISPLAY = 5, /* 0 */
    VDP_LOG_RESET = 6           /* 0 */
};

/* The trailer is two numbers of two bytes, low byte first: how many bytes stand before the trailer, and their sum modulo
 * 65,536. It is not part of the sum. A log without records is four bytes of 0.
 *
 * The outcome of a run is two such numbers: how many records were done, and the place of the record whose read
 * differed, counted from 0; without one, the number of records. */

/* Makes the calls of a log in order, with the effect that each has when it is made alone; a drawn line goes into the line
 * slice, which keeps what it holds where no line is drawn. There is no slice for origins. The whole log is tested before
 * the first record. The run ends behind the last record, or behind the first read that gives another byte than the
 * expected one: that read is done, no record after it is, and the byte that it gave is answered. */
uint32_t vdp_run_log(uint8_t *block, size_t block_len, uint8_t *vram, size_t vram_len, uint8_t *map, size_t map_len, uint8_t *line, size_t line_len, const uint8_t *log, size_t log_len, uint8_t *outcome, size_t outcome_len);

/* The record bytes of a log, into a slice that is 4 bytes shorter. */
uint32_t vdp_read_log(const uint8_t *log, size_t log_len, uint8_t *records, size_t records_len);

/* A log of record bytes, into a slice that is 4 bytes longer. */
uint32_t vdp_write_log(const uint8_t *records, size_t records_len, uint8_t *log, size_t log_len);

#ifdef __cplusplus
}
#endif

#endif
