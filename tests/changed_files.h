/*
 * Files with something changed, for the calls that read one: what host_test.c and season_test.c have in common.
 */
#ifndef CHANGED_FILES_H
#define CHANGED_FILES_H

#include "fenced_calls.h"

/* Calls on a file made here, and the number that they answer. */
typedef uint64_t trial(const uint8_t *bytes, size_t length);

static void refused_for_length(trial *number_of, const uint8_t *bytes, size_t length, const char *words)
{
    check(number_of(bytes, length) == GATEMAP_LENGTH, "%zu bytes: %s", length, words);
}

static void every_prefix(trial *number_of, const uint8_t *bytes, size_t length)
{
    for (size_t prefix = 0; prefix < length; prefix++)
        refused_for_length(number_of, bytes, prefix, "a prefix");
}

static void every_change_of_a_byte(trial *number_of, uint8_t *bytes, size_t length)
{
    for (size_t at = 0; at < length; at++) {
        uint8_t kept = bytes[at];
        for (int change = 1; change < 256; change++) {
            unsigned long before = wrong;
            bytes[at] = (uint8_t)(kept ^ change);
            number_of(bytes, length);
            check(wrong == before, "so it is with byte %zu changed to %d", at, bytes[at]);
        }
        bytes[at] = kept;
    }
}

static void counts_one_off(trial *number_of, uint8_t *bytes, size_t length)
{
    for (int off = -1; off <= 1; off += 2) {
        refused_for_length(number_of, bytes, length + (size_t)off, "a length that is one off");
        put_number(bytes, length - COUNT_BYTES + (uint64_t)off, COUNT_BYTES);
        refused_for_length(number_of, bytes, length, "a count that is one off");
        refused_for_length(number_of, bytes, length + (size_t)off, "count and length one off");
        put_number(bytes, length - COUNT_BYTES, COUNT_BYTES);
    }
}

#endif
