/*
 * host FILE S T: the gate opening that a map file gives at (S, T), both from 0 to 1.
 * host FILE CELL: the points of its map that reach a cell, 0 to 255.
 *
 *     rt staticlib gatemap_host
 *     cc -Iinclude -o host examples/host.c target/staticlib/libgatemap_host.a
 *     ./host map.bin 0.5 0.5
 *     ./host map.bin 136
 *
 * Exit status: 0 done, 1 refused, 2 the command line or the file cannot be read.
 */
#include "common.h"

enum { MOST_POINTS = 128, WORD_BITS = 64 };

static uint8_t file[GATEMAP_MOST_FILE_BYTES + 1];

static int show_cell(size_t length, uint8_t cell)
{
    uint8_t found[GATEMAP_CELL_BYTES];
    uint64_t answer = gatemap_cell(file, length, cell, found, sizeof found);
    if (answer != GATEMAP_DONE)
        return refused(answer, map_words(answer));
    printf("points");
    for (int n = 0; n < MOST_POINTS; n++)
        if (word_at(found + n / WORD_BITS * WORD_BYTES) >> n % WORD_BITS & 1)
            printf(" %d", n);
    printf(" count %d\n", found[2 * WORD_BYTES]);
    return DONE;
}

int main(int argc, char **argv)
{
    double s = 0, t = 0;
    unsigned long long cell = 0;
    size_t length;

    int of_place = argc == 4 && read_number(argv[2], &s) && read_number(argv[3], &t);
    int of_cell = argc == 3 && read_natural(argv[2], UINT8_MAX, &cell);
    if (!of_place && !of_cell) {
        fprintf(stderr, "usage: host FILE S T, with S and T as decimal numbers, or host FILE CELL, with a number from 0 to 255\n");
        return UNUSABLE;
    }
    if (!read_file(argv[1], file, sizeof file, &length))
        return UNUSABLE;
    return of_place ? show_set_point(file, length, s, t) : show_cell(length, (uint8_t)cell);
}
