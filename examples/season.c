/*
 * season SEASON MINUTE S T MAP...: the gate opening at (S, T), both from 0 to 1, by the map that is to be used at a minute of the season. The maps have
 * numbers from 0, as they are given.
 *
 *     rt staticlib gatemap_host
 *     cc -Iinclude -o season examples/season.c target/staticlib/libgatemap_host.a
 *     ./season gin.season 60840 0.5 0.5 early.map frost.map
 *
 * Exit status: 0 done, 1 refused, 2 the command line or a file cannot be read, or the map that is to be used is not given.
 */
#include "common.h"

/* The words of the command line, as main has them. */
enum { SEASON = 1, MINUTE, S, T, MAPS };

static uint8_t season[GATEMAP_MOST_SEASON_BYTES + 1];
static uint8_t file[GATEMAP_MOST_FILE_BYTES + 1];

/* Why there is no map at a minute. */
static const char *season_words(uint64_t answer)
{
    switch (answer) {
    case GATEMAP_LENGTH: return "the season's length is wrong, or a minute of the day is above 1440";
    case GATEMAP_VERSION: return "the season's version is not 1";
    case GATEMAP_SHORT: return "the buffer is too short";
    case GATEMAP_CLASH: return "two windows hold in one minute, or one holds in none";
    case GATEMAP_SHUT: return "no window holds at that minute";
    default: return "an answer that the call on a season does not give";
    }
}

/* The gate opening at (s, t) by a map of those that are given. */
static int show_map(int number, int given, char **maps, double s, double t)
{
    size_t length;
    if (number >= given) {
        fprintf(stderr, "season: map %d is to be used, and the last one given is map %d\n", number, given - 1);
        return UNUSABLE;
    }
    if (!read_file(maps[number], file, sizeof file, &length))
        return UNUSABLE;
    printf("map %d ", number);
    return show_set_point(file, length, s, t);
}

int main(int argc, char **argv)
{
    unsigned long long minute;
    double s, t;
    size_t length;
    uint8_t map[GATEMAP_MAP_NUMBER_BYTES];

    if (argc <= MAPS || !read_natural(argv[MINUTE], UINT32_MAX, &minute) || !read_number(argv[S], &s) || !read_number(argv[T], &t)) {
        fprintf(stderr, "usage: season SEASON MINUTE S T MAP..., with MINUTE a whole number from 0 to 4294967295, and S and T decimal numbers\n");
        return UNUSABLE;
    }
    if (!read_file(argv[SEASON], season, sizeof season, &length))
        return UNUSABLE;
    uint64_t answer = gatemap_season(season, length, (uint32_t)minute, map, sizeof map);
    if (answer != GATEMAP_DONE)
        return refused(answer, season_words(answer));
    return show_map(map[0], argc - MAPS, argv + MAPS, s, t);
}
