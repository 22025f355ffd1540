/*
 * season_test SAMPLE [CASES]: tries the C call on a season, and says in one line how it went.
 *
 * The seasons are SAMPLE, which is samples/gin.season, and one of three windows, with every prefix and every change of one byte of both; seasons of 0, 1,
 * 63 to 66 and 5,000 windows, also with count or length one off; one with every mixture of faults, for every length of the buffer; two windows, in either
 * order, of those whose ends lie near to each other, near midnight and near the last minute that there is; 64 windows, with each one of them wrong and
 * with each two of them in one minute; and those of CASES, which is crates/season_replay/data/cases (oracle/README.md has its format).
 * A season that is not refused is asked for its map at the minutes at which one of its windows may begin or end to hold, and at the minutes before.
 * What is due is read here from Ticket 7 of document 02: whether two windows hold in a common minute is found by going through the days on which both are
 * open, and where these are few it is found again by going through the minutes. How a call is made and looked at is said in fenced_calls.h.
 * The line also says how much stack the call touched, which is held to what the header says.
 */
#define _GNU_SOURCE
#include "changed_files.h"

enum {
    THE_VERSION = 1,
    WINDOWS_AT = 5,
    WINDOW_BYTES = 13,
    MINUTE_BYTES = 4,
    OF_DAY_BYTES = 2,
    MOST_WINDOWS = 64,
    MANY_WINDOWS = 5000,
    DAY_MINUTES = 1440
};

/* It holds from its opening to before its closing, and of each day from the first minute to before the last. */
struct window {
    uint32_t opening, closing;
    uint8_t map;
    uint32_t first, last;
};

static uint8_t season[MOST_CASE_BYTES];
static unsigned long seasons, stored_seasons;

/* ---- what is due, by the paper */

struct reading {
    uint64_t refusal;
    int count;
    struct window windows[MOST_WINDOWS];
};

static int64_t lesser(int64_t one, int64_t other)
{
    return one < other ? one : other;
}

static int64_t greater(int64_t one, int64_t other)
{
    return one > other ? one : other;
}

static int holds(struct window window, uint32_t minute)
{
    uint32_t of_day = minute % DAY_MINUTES;
    return window.opening <= minute && minute < window.closing && window.first <= of_day && of_day < window.last;
}

/* Minutes of the season, from one to before another. */
struct span {
    int64_t from, to;
};

/* The minutes of a day, the first being day 0, at which a window holds. */
static struct span on_day(struct window window, int64_t day)
{
    int64_t midnight = day * DAY_MINUTES;
    return (struct span){greater(window.opening, midnight + window.first), lesser(window.closing, midnight + window.last)};
}

static struct span both(struct span one, struct span other)
{
    return (struct span){greater(one.from, other.from), lesser(one.to, other.to)};
}

/* The minutes at which two windows are open, whatever the time of day. */
static struct span both_open(struct window one, struct window other)
{
    return both((struct span){one.opening, one.closing}, (struct span){other.opening, other.closing});
}

/* Whether two windows hold in some common minute, day by day. A window holds in some minute where it does so with itself. */
static int hold_together(struct window one, struct window other)
{
    struct span open = both_open(one, other);
    for (int64_t day = open.from / DAY_MINUTES; day * DAY_MINUTES < open.to; day++) {
        struct span common = both(on_day(one, day), on_day(other, day));
        if (common.from < common.to)
            return 1;
    }
    return 0;
}

/* The same minute by minute. */
static int hold_in_a_minute(struct window one, struct window other)
{
    struct span open = both_open(one, other);
    for (int64_t minute = open.from; minute < open.to; minute++)
        if (holds(one, (uint32_t)minute) && holds(other, (uint32_t)minute))
            return 1;
    return 0;
}

static int length_right(const uint8_t *bytes, size_t length)
{
    return WINDOWS_AT <= length && length <= GATEMAP_MOST_SEASON_BYTES && (length - WINDOWS_AT) % WINDOW_BYTES == 0 &&
           big_endian(bytes, COUNT_BYTES) == length - COUNT_BYTES;
}

static int past_the_day(const struct reading *reading)
{
    for (int n = 0; n < reading->count; n++)
        if (reading->windows[n].first > DAY_MINUTES || reading->windows[n].last > DAY_MINUTES)
            return 1;
    return 0;
}

static int clash(const struct reading *reading)
{
    for (int n = 0; n < reading->count; n++) {
        if (!hold_together(reading->windows[n], reading->windows[n]))
            return 1;
        for (int k = 0; k < n; k++)
            if (hold_together(reading->windows[n], reading->windows[k]))
                return 1;
    }
    return 0;
}

static struct window window_at(const uint8_t *at)
{
    struct window window;
    window.opening = (uint32_t)big_endian(at, MINUTE_BYTES);
    window.closing = (uint32_t)big_endian(at + 4, MINUTE_BYTES);
    window.map = at[8];
    window.first = (uint32_t)big_endian(at + 9, OF_DAY_BYTES);
    window.last = (uint32_t)big_endian(at + 11, OF_DAY_BYTES);
    return window;
}

static uint64_t refusal_of(const uint8_t *bytes, const struct reading *reading)
{
    if (past_the_day(reading))
        return GATEMAP_LENGTH;
    if (bytes[VERSION_AT] != THE_VERSION)
        return GATEMAP_VERSION;
    return clash(reading) ? GATEMAP_CLASH : GATEMAP_DONE;
}

/* A season's windows, and why it is refused. Where its length is wrong, it has none. */
static const struct reading *read_season(const uint8_t *bytes, size_t length)
{
    static struct reading reading;
    reading.refusal = GATEMAP_LENGTH;
    reading.count = 0;
    seasons++;
    if (length_right(bytes, length)) {
        for (size_t at = WINDOWS_AT; at < length; at += WINDOW_BYTES)
            reading.windows[reading.count++] = window_at(bytes + at);
        reading.refusal = refusal_of(bytes, &reading);
    }
    return &reading;
}

/* The number of the answer, and the map in its first byte where there is one. */
static struct answer due_at(const struct reading *reading, uint32_t minute, size_t room)
{
    struct answer due = {.number = GATEMAP_SHUT};
    memset(due.bytes, FILLER, sizeof due.bytes);
    if (room < GATEMAP_MAP_NUMBER_BYTES)
        due.number = GATEMAP_SHORT;
    else if (reading->refusal != GATEMAP_DONE)
        due.number = reading->refusal;
    else
        for (int n = 0; n < reading->count; n++)
            if (holds(reading->windows[n], minute)) {
                due.number = GATEMAP_DONE;
                due.bytes[0] = reading->windows[n].map;
            }
    return due;
}

/* ---- asking */

static struct answer ask(const uint8_t *bytes, size_t length, const struct reading *reading, uint32_t minute, size_t room)
{
    struct answer due = due_at(reading, minute, room);
    struct answer answer = call_twice(bytes, length, (struct question){.of = SEASON, .minute = minute}, room);
    check(answer.number == due.number, "%d where %d is due at minute %lu of %zu bytes, room %zu", (int)answer.number, (int)due.number,
          (unsigned long)minute, length, room);
    check(answer.number != due.number || memcmp(answer.bytes, due.bytes, sizeof due.bytes) == 0,
          "map %d where %d is due at minute %lu of %zu bytes", answer.bytes[0], due.bytes[0], (unsigned long)minute, length);
    return answer;
}

/* The season made here, asked at one minute. */
static uint64_t ask_once(size_t length, uint32_t minute)
{
    return ask(season, length, read_season(season, length), minute, GATEMAP_MAP_NUMBER_BYTES).number;
}

/* At the opening and the closing of a window, and, on the days of both and of the minute before the closing, at midnight and at its first and last minute. */
static void ask_around(const uint8_t *bytes, size_t length, const struct reading *reading, struct window window)
{
    const uint32_t ends[] = {window.opening, window.closing, window.closing - 1};
    for (size_t end = 0; end < sizeof ends / sizeof ends[0]; end++) {
        uint32_t midnight = ends[end] - ends[end] % DAY_MINUTES;
        const uint32_t turns[] = {ends[end], midnight, midnight + window.first, midnight + window.last};
        for (size_t turn = 0; turn < sizeof turns / sizeof turns[0]; turn++) {
            ask(bytes, length, reading, turns[turn] - 1, GATEMAP_MAP_NUMBER_BYTES);
            ask(bytes, length, reading, turns[turn], GATEMAP_MAP_NUMBER_BYTES);
        }
    }
}

/* A season at all the minutes, a refused one at the openings of its windows alone. It gives why it is refused, or 0. */
static uint64_t try_season(const uint8_t *bytes, size_t length)
{
    const struct reading *reading = read_season(bytes, length);
    ask(bytes, length, reading, 0, GATEMAP_MAP_NUMBER_BYTES);
    ask(bytes, length, reading, UINT32_MAX, GATEMAP_MAP_NUMBER_BYTES);
    for (int n = 0; n < reading->count; n++)
        if (reading->refusal == GATEMAP_DONE)
            ask_around(bytes, length, reading, reading->windows[n]);
        else
            ask(bytes, length, reading, reading->windows[n].opening, GATEMAP_MAP_NUMBER_BYTES);
    return reading->refusal;
}

/* ---- seasons made here */

static size_t put_season(const struct window *windows, int count)
{
    uint8_t *at = put_number(season, 1 + WINDOW_BYTES * (uint64_t)count, COUNT_BYTES);
    at = put_number(at, THE_VERSION, 1);
    for (int n = 0; n < count; n++) {
        at = put_number(put_number(at, windows[n].opening, MINUTE_BYTES), windows[n].closing, MINUTE_BYTES);
        at = put_number(put_number(at, windows[n].map, 1), windows[n].first, OF_DAY_BYTES);
        at = put_number(at, windows[n].last, OF_DAY_BYTES);
    }
    return (size_t)(at - season);
}

enum { THREE = 3 };

/* The second touches the first at noon, and the third, which has the greatest map number, touches both at its opening. */
static size_t three_windows(void)
{
    static const struct window windows[THREE] = {{0, 3000, 0, 0, 720}, {1500, 3000, 1, 720, 1440}, {3000, 4000, 255, 360, 1320}};
    return put_season(windows, THREE);
}

static struct window many[MANY_WINDOWS];

/* Windows with a day each, round the clock, the later days first. */
static void a_day_each(int count)
{
    for (int n = 0; n < count; n++) {
        uint32_t day = (uint32_t)(count - 1 - n);
        many[n] = (struct window){day * DAY_MINUTES, (day + 1) * DAY_MINUTES, (uint8_t)n, 0, DAY_MINUTES};
    }
}

static size_t put_days(int count)
{
    a_day_each(count);
    return put_season(many, count);
}

/* 64 windows that are open in the same minutes, from within a day to within another, each with a part of the day. The parts touch, and leave none out. */
static size_t put_parts_of_the_day(void)
{
    enum { PART = DAY_MINUTES / MOST_WINDOWS };
    for (int n = 0; n < MOST_WINDOWS; n++)
        many[n] = (struct window){1000, 6 * DAY_MINUTES + 500, (uint8_t)(2 * n), (uint32_t)n * PART, (uint32_t)(n + 1) * PART};
    many[MOST_WINDOWS - 1].last = DAY_MINUTES;
    return put_season(many, MOST_WINDOWS);
}

/* ---- the seasons, one after the other */

static void sample(size_t length)
{
    check(try_season(season, length) == GATEMAP_DONE, "a sample of %zu bytes is refused", length);
    every_prefix(try_season, season, length);
    every_change_of_a_byte(try_season, season, length);
}

/* What docs/FORMATS.md says of the sample. */
static void sample_answers(size_t length)
{
    static const struct {
        uint32_t minute;
        uint64_t number;
        uint8_t map;
    } due[] = {{60839, GATEMAP_DONE, 0}, {60840, GATEMAP_DONE, 1}, {61799, GATEMAP_DONE, 1}, {61800, GATEMAP_SHUT, FILLER}};
    for (size_t i = 0; i < sizeof due / sizeof due[0]; i++) {
        struct answer answer = ask(season, length, read_season(season, length), due[i].minute, GATEMAP_MAP_NUMBER_BYTES);
        check(answer.number == due[i].number && answer.bytes[0] == due[i].map, "the sample at minute %lu", (unsigned long)due[i].minute);
    }
}

static void counts_of_windows(void)
{
    static const int counts[] = {0, 1, MOST_WINDOWS - 1, MOST_WINDOWS, MOST_WINDOWS + 1, MOST_WINDOWS + 2, MANY_WINDOWS};
    for (size_t i = 0; i < sizeof counts / sizeof counts[0]; i++) {
        size_t length = put_days(counts[i]);
        check(try_season(season, length) == (counts[i] <= MOST_WINDOWS ? GATEMAP_DONE : GATEMAP_LENGTH), "%d windows", counts[i]);
        counts_one_off(try_season, season, length);
    }
}

/* Longer than any season: with the count of its bytes, and with that of the longest season, as which it begins. */
static void longer_ones(void)
{
    static const size_t lengths[] = {GATEMAP_MOST_SEASON_BYTES + 1, 1024, GATEMAP_MOST_FILE_BYTES, MOST_CASE_BYTES};
    for (size_t i = 0; i < sizeof lengths / sizeof lengths[0]; i++) {
        put_days(MOST_WINDOWS);
        check(try_season(season, lengths[i]) == GATEMAP_LENGTH, "%zu bytes with a season in front", lengths[i]);
        put_number(season, lengths[i] - COUNT_BYTES, COUNT_BYTES);
        check(try_season(season, lengths[i]) == GATEMAP_LENGTH, "%zu bytes", lengths[i]);
    }
}

/* What may be wrong with a season, each by itself. */
enum { COUNT_OFF = 1, PAST_THE_DAY = 2, OTHER_VERSION = 4, CLASHING = 8, FAULTS = 16 };

static size_t three_with_faults(int faults)
{
    size_t length = three_windows();
    if (faults & CLASHING)
        memcpy(season + WINDOWS_AT, season + WINDOWS_AT + WINDOW_BYTES, WINDOW_BYTES);
    if (faults & PAST_THE_DAY)
        put_number(season + length - OF_DAY_BYTES, DAY_MINUTES + 1, OF_DAY_BYTES);
    if (faults & OTHER_VERSION)
        season[VERSION_AT] = THE_VERSION + 1;
    if (faults & COUNT_OFF)
        season[COUNT_BYTES - 1]++;
    return length;
}

/* At a minute of each window, and at one at which none holds, whatever the length of the buffer. */
static void every_mixture_of_faults(void)
{
    static const uint32_t minutes[] = {0, 2160, 3300, 3000};
    for (int faults = 0; faults < FAULTS; faults++) {
        size_t length = three_with_faults(faults);
        const struct reading *reading = read_season(season, length);
        for (size_t room = 0; room <= MOST_ROOM; room++)
            for (size_t i = 0; i < sizeof minutes / sizeof minutes[0]; i++)
                ask(season, length, reading, minutes[i], room);
    }
}

/* ---- two windows */

/*
 * Openings and closings after a midnight, with lengths from none to some days; and parts of the day. Where that midnight begins the last whole day of the
 * minutes that there are, 1696 is past the last of them: the day after it has 256 minutes.
 */
static const struct span OPEN[] = {{0, 1},       {0, 720},     {0, 1440},    {0, 1441},    {720, 2160},  {1439, 1440}, {1439, 1441},
                                   {1440, 2880}, {1441, 1696}, {1500, 1696}, {1600, 1695}, {2160, 4320}, {720, 720},   {1440, 720}};
static const struct span OF_DAY[] = {{0, 1440}, {0, 1}, {0, 720}, {719, 721}, {720, 1440}, {1439, 1440}, {0, 60}, {255, 257}, {720, 720}, {1440, 1440}};

enum { OPEN_TRIED = sizeof OPEN / sizeof OPEN[0], OF_DAY_TRIED = sizeof OF_DAY / sizeof OF_DAY[0], NEAR_TRIED = OPEN_TRIED * OF_DAY_TRIED };

/* A window that opens near a midnight, cut off at the last minute that there is. */
static struct window near_midnight(int64_t midnight, int number)
{
    struct span open = OPEN[number / OF_DAY_TRIED], of_day = OF_DAY[number % OF_DAY_TRIED];
    return (struct window){(uint32_t)lesser(midnight + open.from, UINT32_MAX), (uint32_t)lesser(midnight + open.to, UINT32_MAX),
                           (uint8_t)number, (uint32_t)of_day.from, (uint32_t)of_day.to};
}

static void two_windows(struct window one, struct window other)
{
    const struct window windows[] = {one, other};
    unsigned long before = wrong;
    check(hold_together(one, other) == hold_in_a_minute(one, other), "the days say another thing than the minutes");
    try_season(season, put_season(windows, 2));
    check(wrong == before, "so it is with %lu to %lu, %lu to %lu, and %lu to %lu, %lu to %lu", (unsigned long)one.opening,
          (unsigned long)one.closing, (unsigned long)one.first, (unsigned long)one.last, (unsigned long)other.opening,
          (unsigned long)other.closing, (unsigned long)other.first, (unsigned long)other.last);
}

static void every_two_near(int64_t midnight)
{
    for (int one = 0; one < NEAR_TRIED; one++)
        for (int other = 0; other < NEAR_TRIED; other++)
            two_windows(near_midnight(midnight, one), near_midnight(midnight, other));
}

/* Two windows that are open in all minutes but the last, and touch or have one minute of the day in common. */
static void two_long_windows(void)
{
    struct window windows[] = {{0, UINT32_MAX, 1, 0, 720}, {0, UINT32_MAX, 2, 720, DAY_MINUTES}};
    check(try_season(season, put_season(windows, 2)) == GATEMAP_DONE, "two windows that touch at noon");
    windows[0].last++;
    check(try_season(season, put_season(windows, 2)) == GATEMAP_CLASH, "two windows that have a minute after noon in common");
}

/* ---- 64 windows */

/* One of them past the day, or such that it holds in no minute. */
static void each_one_wrong(void)
{
    static const struct {
        uint32_t first, last;
        uint64_t refusal;
    } parts[] = {{DAY_MINUTES + 1, DAY_MINUTES, GATEMAP_LENGTH}, {0, DAY_MINUTES + 1, GATEMAP_LENGTH}, {0, UINT16_MAX, GATEMAP_LENGTH},
                 {DAY_MINUTES, DAY_MINUTES, GATEMAP_CLASH}, {0, 0, GATEMAP_CLASH}, {720, 719, GATEMAP_CLASH}};
    for (int n = 0; n < MOST_WINDOWS; n++) {
        for (size_t part = 0; part < sizeof parts / sizeof parts[0]; part++) {
            a_day_each(MOST_WINDOWS);
            many[n].first = parts[part].first;
            many[n].last = parts[part].last;
            check(ask_once(put_season(many, MOST_WINDOWS), 0) == parts[part].refusal, "window %d of 64, wrong part %zu", n, part);
        }
        a_day_each(MOST_WINDOWS);
        many[n].closing = many[n].opening;
        check(ask_once(put_season(many, MOST_WINDOWS), 0) == GATEMAP_CLASH, "window %d of 64 is never open", n);
    }
}

/* One of them in the last minute of another's day. */
static void each_two_in_one_minute(void)
{
    for (int n = 0; n < MOST_WINDOWS; n++)
        for (int other = 0; other < MOST_WINDOWS; other++) {
            a_day_each(MOST_WINDOWS);
            many[n].closing = many[other].closing;
            many[n].opening = many[n].closing - 1;
            uint64_t due = n == other ? GATEMAP_DONE : GATEMAP_CLASH;
            check(ask_once(put_season(many, MOST_WINDOWS), many[n].opening) == due, "windows %d and %d of 64", n, other);
        }
}

static void windows_made_here(void)
{
    sample(three_windows());
    counts_of_windows();
    longer_ones();
    every_mixture_of_faults();
    every_two_near(0);
    every_two_near((int64_t)(UINT32_MAX / DAY_MINUTES - 1) * DAY_MINUTES);
    two_long_windows();
    check(try_season(season, put_parts_of_the_day()) == GATEMAP_DONE, "64 parts of the day");
    each_one_wrong();
    each_two_in_one_minute();
}

/* ---- seasons in files */

static void sample_file(const char *path)
{
    FILE *file = fopen(path, "rb");
    stop_unless(file != NULL, path);
    size_t length = fread(season, 1, sizeof season, file);
    fclose(file);
    sample(length);
    sample_answers(length);
}

enum { STORED_CALL_BYTES = 7 };

/* The calls of a stored case: minute, room, the answer's number, and the map or a filler. */
static void stored_calls(const uint8_t *bytes, size_t length, const uint8_t *at, int left)
{
    const struct reading *reading = read_season(bytes, length);
    for (; left > 0; left--, at += STORED_CALL_BYTES) {
        struct answer answer = ask(bytes, length, reading, (uint32_t)big_endian(at, MINUTE_BYTES), at[4]);
        check(answer.number == at[5] && answer.bytes[0] == at[6], "stored season %lu: %d, map %d where %d, map %d are stored", stored_seasons,
              (int)answer.number, answer.bytes[0], at[5], at[6]);
    }
}

static void stored_cases(const char *path)
{
    static uint8_t bytes[MOST_CASE_BYTES];
    size_t size;
    FILE *cases = fopen(path, "rb");
    stop_unless(cases != NULL, path);
    for (; next_case(cases, bytes, &size); stored_seasons++) {
        size_t length = pair_at(bytes);
        const uint8_t *asked = bytes + 2 + length + 1;
        check(asked + asked[-1] * STORED_CALL_BYTES == bytes + size, "stored season %lu: its length", stored_seasons);
        stored_calls(bytes + 2, length, asked, asked[-1]);
    }
    fclose(cases);
}

static void *every_season(void *given)
{
    char **paths = given;
    windows_made_here();
    sample_file(paths[0]);
    if (paths[1] != NULL)
        stored_cases(paths[1]);
    return NULL;
}

int main(int argc, char **argv)
{
    if (argc < 2 || argc > 3) {
        fputs("usage: season_test SAMPLE [CASES]\n", stderr);
        return 2;
    }
    make_rooms();
    size_t stack = stack_touched(every_season, argv + 1);
    printf("%lu calls on %lu seasons, %lu of them stored, %zu bytes of stack for a season: %lu wrong\n", calls, seasons, stored_seasons, stack,
           wrong);
    return wrong != 0 || stack > GATEMAP_STACK_BYTES || (argc == 3 && stored_seasons == 0);
}
