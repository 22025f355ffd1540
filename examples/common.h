/*
 * What the examples have in common: reading words of the command line and files, and showing the gate opening of a map file.
 */
#ifndef EXAMPLES_COMMON_H
#define EXAMPLES_COMMON_H

#include <ctype.h>
#include <errno.h>
#include <stdio.h>
#include <stdlib.h>
#include <string.h>

#include "gatemap_host.h"

/* How a program ends. */
enum { DONE, REFUSED, UNUSABLE };

enum { WORD_BYTES = 8 };

_Static_assert(sizeof(double) == sizeof(uint64_t), "a double has 64 bits");

/* ---- the command line and files */

/* Whether a word is a number and nothing else. */
static inline int read_number(const char *word, double *number)
{
    char *end;
    *number = strtod(word, &end);
    return end != word && *end == '\0';
}

/* Whether a word is a whole number from 0 to a greatest one, in decimal digits and nothing else. */
static inline int read_natural(const char *word, unsigned long long most, unsigned long long *number)
{
    char *end;
    errno = 0;
    *number = strtoull(word, &end, 10);
    return isdigit((unsigned char)*word) && *end == '\0' && errno == 0 && *number <= most;
}

/*
 * Whether a file's bytes could be read, and how many there are. The room is one byte more than any file that is not refused takes: a longer one is then
 * cut, and refused like any wrong length. Where it can't be read, it is said why.
 */
static inline int read_file(const char *path, uint8_t *bytes, size_t room, size_t *length)
{
    FILE *stream = fopen(path, "rb");
    if (stream == NULL) {
        perror(path);
        return 0;
    }
    *length = fread(bytes, 1, room, stream);
    int failed = ferror(stream);
    if (failed)
        perror(path);
    fclose(stream);
    return !failed;
}

/* ---- answers */

static inline int refused(uint64_t answer, const char *words)
{
    printf("refused %llu: %s\n", (unsigned long long)answer, words);
    return REFUSED;
}

/* Why a call on a map file is refused. */
static inline const char *map_words(uint64_t answer)
{
    switch (answer) {
    case GATEMAP_OPEN_SIDE: return "the evaluation met an open side";
    case GATEMAP_BORDER: return "the evaluation met a border";
    case GATEMAP_RING: return "the evaluation went round in a ring";
    case GATEMAP_LENGTH: return "the file's length is wrong";
    case GATEMAP_VERSION: return "the file's version is neither 1 nor 2";
    case GATEMAP_HEADING: return "an edit's direction is above 3";
    case GATEMAP_NO_WEIGHT: return "the map has no weight there";
    case GATEMAP_SHORT: return "the buffer is too short";
    case GATEMAP_OFF_MAP: return "s or t is not from 0 to 1";
    default: return "an answer that no call on a map file gives";
    }
}

static inline uint64_t bits_of(double x)
{
    uint64_t bits;
    memcpy(&bits, &x, sizeof bits);
    return bits;
}

static inline uint64_t word_at(const uint8_t *bytes)
{
    uint64_t word = 0;
    for (int i = 0; i < WORD_BYTES; i++)
        word = word << 8 | bytes[i];
    return word;
}

static inline double float_at(const uint8_t *bytes)
{
    uint64_t bits = word_at(bytes);
    double x;
    memcpy(&x, &bits, sizeof x);
    return x;
}

static inline int show_set_point(const uint8_t *file, size_t length, double s, double t)
{
    uint8_t value[GATEMAP_VALUE_BYTES];
    uint64_t answer = gatemap_set_point(file, length, bits_of(s), bits_of(t), value, sizeof value);
    if (answer != GATEMAP_DONE)
        return refused(answer, map_words(answer));
    printf("position %.17g %.17g %.17g weight %.17g\n", float_at(value), float_at(value + WORD_BYTES), float_at(value + 2 * WORD_BYTES),
           float_at(value + 3 * WORD_BYTES));
    return DONE;
}

#endif
