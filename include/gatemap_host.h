/*
 * The gate map, for a C host.
 *
 * Two calls read a map file and draw its map. gatemap_set_point gives the
 * position and the total weight at (s, t), both from 0 to 1; gatemap_cell says
 * which points reach a cell of the map. A third, gatemap_season, reads a season
 * file and says which map is to be used at a minute. A fourth, gatemap_load, reads
 * none: it makes a map file from a seed and a count of edits, the same one wherever
 * it is called. Where there is no answer, they say why by a number. Each is proved
 * to do so for every file or season, every place, cell or minute, every seed and
 * count, and every buffer (crates/gatemap_host); docs/FORMATS.md has the formats.
 * There are two versions of a map file, with one layout: in version 1 a torn edit
 * stays, and in version 2 it is withdrawn, which leaves the map as it was before.
 * Of a season file there is one.
 *
 *     uint8_t value[GATEMAP_VALUE_BYTES];
 *     if (gatemap_set_point(file, length, s_bits, t_bits, value, sizeof value) == GATEMAP_DONE)
 *         ...
 *
 * `tools/build gatemap_host` writes the archive, target/staticlib/libgatemap_host.a,
 * for x86-64 Linux. It links with gcc or clang and needs nothing but the C
 * library (memcpy, memset). examples/host.c (with examples/common.h) is
 * a whole program, examples/season.c one that takes the map that a season has at a
 * minute, and examples/load.c one that writes a load's map file.
 *
 * The host sees to this, in every call; what is said of file holds for season too,
 * and gatemap_load takes neither:
 *  - file and out each point to as many bytes as their length says, and the two
 *    do not overlap. Neither is null, even where its length is 0: nothing is
 *    then read or written there, but a null pointer is not what was proved.
 *  - nothing else writes file, and nothing else reads or writes out, during the
 *    call. A call keeps no state, so calls may run at once in several threads,
 *    with one file if need be, each with its own buffer.
 *  - GATEMAP_STACK_BYTES of stack are free. A call allocates nothing else.
 *  - the processor rounds to nearest and keeps subnormal numbers, as a C program
 *    starts (a link with -ffast-math may change that). gatemap_season computes
 *    with whole numbers alone, and gatemap_load with these and with quotients by
 *    1024 that are exact: they do not need this.
 *
 * A call always returns, and never sets errno. Done, it has written the first bytes
 * of the buffer, and the rest is untouched; it returns 0, but gatemap_load returns
 * how many bytes it wrote. Refused, it returns the refusal's number and leaves all
 * of the buffer untouched.
 */
#ifndef GATEMAP_HOST_H
#define GATEMAP_HOST_H

#include <stddef.h>
#include <stdint.h>

#ifdef __cplusplus
extern "C" {
#endif

enum {
    /* What a value takes in the buffer, what a cell does, and what a map number does. */
    GATEMAP_VALUE_BYTES = 32,
    GATEMAP_CELL_BYTES = 17,
    GATEMAP_MAP_NUMBER_BYTES = 1,
    /* The most edits that a map file has. */
    GATEMAP_MOST_EDITS = 1000,
    /*
     * The shortest and the longest map file that is not refused: 4 + 105 bytes, and 34 * 1,000 more.
     * What gatemap_load returns is a length where it is at least the shortest one's, else a refusal.
     */
    GATEMAP_LEAST_FILE_BYTES = 109,
    GATEMAP_MOST_FILE_BYTES = 34109,
    /* The longest season file that is not refused: 4 + 1 + 13 * 64 bytes. */
    GATEMAP_MOST_SEASON_BYTES = 837,
    /* The stack that a call may take: at most 18,464 bytes were measured (tests/host). */
    GATEMAP_STACK_BYTES = 24576
};

/*
 * The answer numbers. gatemap_set_point returns 0, 3, 4, 9, 12 to 16 or 20,
 * gatemap_cell one of these other than 15 and 20, gatemap_season 0, 12, 13, 16, 18 or
 * 19, and gatemap_load a length, 16, 21 or 22. The others are answers of single edits,
 * and of other calls on a map: the calls on a map file pass a refused edit over, and
 * the program `gatemap` prints its number.
 */
enum gatemap_answer {
    GATEMAP_DONE = 0,
    GATEMAP_RATIO = 1,      /* a ratio that is not from 0 to 1 */
    GATEMAP_FOREIGN = 2,    /* a point that the map does not list */
    GATEMAP_OPEN_SIDE = 3,  /* an open side in the way */
    GATEMAP_BORDER = 4,     /* a border in the way */
    GATEMAP_TAKEN = 5,      /* a side that is not open */
    GATEMAP_INTERVAL = 6,   /* an interval that is infinite or not a number */
    GATEMAP_ITSELF = 7,     /* a point joined to itself */
    GATEMAP_TORN = 8,       /* an edit done in part: its point is not listed, or in version 2 it is withdrawn */
    GATEMAP_RING = 9,       /* a way that goes round */
    GATEMAP_FULL = 10,      /* a map of 128 points */
    GATEMAP_NO_POINT = 11,  /* a point that was never made */
    GATEMAP_LENGTH = 12,    /* a file of a wrong length, or with a wrong count in front; a season with a minute of the day above 1440 */
    GATEMAP_VERSION = 13,   /* a map file whose version is neither 1 nor 2, a season whose version is not 1 */
    GATEMAP_HEADING = 14,   /* a map file with an edit whose direction is above 3 */
    GATEMAP_NO_WEIGHT = 15, /* a weight at (s, t) that is not positive and finite */
    GATEMAP_SHORT = 16,     /* a buffer shorter than what the call writes: a value, a cell, a map number or the load's file */
    GATEMAP_PULL = 17,      /* a pull that is negative, infinite or not a number */
    GATEMAP_CLASH = 18,     /* a season with two windows that hold in some common minute, or with one that holds in none */
    GATEMAP_SHUT = 19,      /* a minute at which no window of the season holds */
    GATEMAP_OFF_MAP = 20,   /* a place off the map: s or t is not from 0 to 1, or not a number */
    GATEMAP_SEED = 21,      /* a load of the seed 0 */
    GATEMAP_TOO_MANY = 22   /* a load of more than GATEMAP_MOST_EDITS edits */
};

/*
 * The set-point of a map file at (s, t).
 *
 * file, file_length  the bytes of the file, whatever they are
 * s_bits, t_bits     the bits of s and t, as 64-bit IEEE doubles
 * out, out_length    the buffer
 *
 * Done, the first 32 bytes of the buffer are x, y, z and the total weight, in
 * this order, each the eight bytes of a double's bits, the most significant
 * first, a NaN as 7ff8000000000000. The weight is then positive and finite, and s
 * and t lie from 0 to 1, both ends included (-0.0 is 0): off the map there is no
 * set-point, and no edit is run there.
 * Where the file's border weight is 0 or more, and its corners and points lie
 * from 0 to 1 on an axis, so does the position on that axis (docs/THEOREMS.md);
 * else it may be anything, a NaN too.
 *
 * Where several refusals hold, the first in this order is returned: a buffer
 * under 32 bytes 16, the file's 12, 13, 14, a place off the map 20, the
 * evaluation's 3, 4 or 9, no weight 15.
 */
uint64_t gatemap_set_point(const uint8_t *file, size_t file_length, uint64_t s_bits, uint64_t t_bits,
                           uint8_t *out, size_t out_length);

/*
 * Which points of a map file reach a cell.
 *
 * file, file_length  the bytes of the file, whatever they are
 * cell               16 times its t row plus its s column, both from 0
 * out, out_length    the buffer
 *
 * The cells are a grid of 16 by 16 over 0 to 1 both ways. A cell has its lower
 * lines and not its upper ones: (s, t), both from 0 to below 1, lies in the cell
 * 16 * (int)(16 * t) + (int)(16 * s).
 *
 * Done, the first 17 bytes of the buffer are the cell's first word, its second
 * word, eight bytes each, the most significant first, and the count of their
 * ones, one byte. Points have numbers from 0 as made: the four corners, then
 * those that edits make. Number n of a listed point is at bit n modulo 64 (bit 0
 * the least significant), in the first word for n below 64 and in the second from
 * 64 on. That bit is set exactly where some (s, t) of the cell, as doubles, lies
 * within the point's outer knots both ways, the first included and the last
 * excluded.
 * All other bits are 0; so is that of a torn edit's point, which in version 1 is
 * made and not listed.
 *
 * Where several refusals hold, the first in this order is returned: a buffer
 * under 17 bytes 16, the file's 12, 13, 14, the evaluation's 3, 4 or 9.
 */
uint64_t gatemap_cell(const uint8_t *file, size_t file_length, uint8_t cell, uint8_t *out, size_t out_length);

/*
 * Which map is to be used at a minute of a season.
 *
 * season, season_length  the bytes of the season file, whatever they are
 * minute                 counted from the season's start, which is at midnight
 * out, out_length        the buffer
 *
 * A season is up to 64 windows, each for one map. A window has its opening and its
 * closing minute of the season and its first and last minute of the day, and it
 * holds at a minute m when opening <= m < closing and first <= m % 1440 < last. Of
 * a season that is not refused, at most one holds at each minute.
 *
 * Done, the first byte of the buffer is the map number of the window that holds,
 * 0 to 255. Which map file has which number is for the host to say.
 *
 * Where several refusals hold, the first in this order is returned: a buffer
 * under 1 byte 16; a season of a wrong length or with a wrong count in front 12;
 * a first or last minute of the day above 1440, in any window, 12 too; a version
 * other than 1 13; two windows that hold in some common minute below 2^32, or one
 * that holds in no minute, 18; no window that holds at this minute 19. The
 * season's own, 12, 13 and 18, are the same at every minute.
 */
uint64_t gatemap_season(const uint8_t *season, size_t season_length, uint32_t minute, uint8_t *out, size_t out_length);

/*
 * A load: the map file that a seed and a count of edits give. Two suppliers that
 * have these two numbers have one file, byte for byte.
 *
 * seed             any number but 0
 * edits            how many edits the file has, at most 1,000
 * out, out_length  the buffer
 *
 * Done, the call returns the length of the file, 109 + 34 * edits bytes, and the
 * file stands in the first bytes of the buffer. It has version 1, border 1.0 and
 * the corners (0,0,0), (1,0,0), (1,1,1) and (0,1,1). Draws are numbers of 64 bits;
 * the first one is made from the seed and each of the others from the one before:
 *
 *     x ^= x << 13; x ^= x >> 7; x ^= x << 17;
 *
 * Each edit takes six, in this order: the point is draw % 128, the direction
 * draw % 4, and the ratio and the position's x, y and z are (draw % 1025) / 1024.0
 * each. So a load's file has none of the refusals 12, 13 and 14 of a map file, and
 * its ratios and positions lie from 0 to 1. Single edits of it may be refused; they
 * are passed over, as those of any file.
 *
 * Where several refusals hold, the first in this order is returned: the seed 0 21,
 * over 1,000 edits 22, a buffer shorter than the file 16.
 */
uint64_t gatemap_load(uint64_t seed, uint64_t edits, uint8_t *out, size_t out_length);

#ifdef __cplusplus
}
#endif

#endif
