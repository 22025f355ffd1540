/*
 * load SEED EDITS: writes the map file of a load, with so many edits, to standard output. Two suppliers that give the same numbers get the same bytes.
 *
 *     rt staticlib gatemap_host
 *     cc -Iinclude -o load examples/load.c target/staticlib/libgatemap_host.a
 *     ./load 20030727 40 > load.map
 *
 * Where the load is refused, standard error says why, and nothing is written to standard output.
 *
 * Exit status: 0 done, 1 refused, 2 the command line cannot be read or the file cannot be written.
 */
#include "common.h"

static uint8_t file[GATEMAP_MOST_FILE_BYTES];

/* Why there is no load of a seed and a count of edits. */
static const char *load_words(uint64_t answer)
{
    switch (answer) {
    case GATEMAP_SHORT: return "the buffer is too short";
    case GATEMAP_SEED: return "the seed is 0";
    case GATEMAP_TOO_MANY: return "there are more than 1,000 edits";
    default: return "an answer that the call for a load does not give";
    }
}

static int write_file(size_t length)
{
    if (fwrite(file, 1, length, stdout) == length && fflush(stdout) == 0)
        return DONE;
    perror("load");
    return UNUSABLE;
}

int main(int argc, char **argv)
{
    unsigned long long seed, edits;

    if (argc != 3 || !read_natural(argv[1], UINT64_MAX, &seed) || !read_natural(argv[2], UINT64_MAX, &edits)) {
        fprintf(stderr, "usage: load SEED EDITS, with whole numbers from 0 to 18446744073709551615\n");
        return UNUSABLE;
    }
    uint64_t answer = gatemap_load(seed, edits, file, sizeof file);
    if (answer >= GATEMAP_LEAST_FILE_BYTES)
        return write_file((size_t)answer);
    fprintf(stderr, "refused %llu: %s\n", (unsigned long long)answer, load_words(answer));
    return REFUSED;
}
