/*
 * host_test CASES [PROGRAM]: tries the C calls on a map file, and with PROGRAM the program `gatemap` too, and says in one line how it went.
 *
 * The files are document 01's sample in each version, every prefix and every change of one byte of it; samples of 0, 1, 2, 999, 1,000 and 1,001 edits,
 * also with count or length one off; two edits of which the first is torn; maps with a line of 124 points on the lower edge, in version 2 among 124
 * withdrawn edits; and those of CASES, which is crates/file_replay/data/cases (oracle/README.md has its format).
 * How a call is made and looked at is said in fenced_calls.h.
 * Set-points are asked for on the map, at its edges, beside them and off it, by the bits of s and t: every pair of some, and pairs drawn. Where 20 is due
 * is told by the bits alone. Off the map every stored file is asked, and files with several things wrong at once, with buffers that are too short and
 * others. On the map the sample must have the value that the recursion of Cox and de Boor gives, but for rounding.
 * A cell's words are held against the stored ones or, of a file made here, against those that the outer knots of its points give; the knots are
 * worked out here, from document 01. Asked of one place, the two calls must be refused alike, and a place that no point reaches has no weight, unless
 * the border is NaN.
 * The program is run once on each file but the lines of points, and must print the file's report and nothing else (programs.h). The report
 * is the stored text or, of a file made here, the text that document 01 asks for; its last line is held against the set-point at (0.5, 0.5), and
 * the counts of a stored file's against the answers of its edits, as far as the report shows them.
 * The line also says how much stack each of the two calls touched, which is held to what the header says; a cell may take no more than a set-point.
 */
#define _GNU_SOURCE
#include <math.h>

#include "changed_files.h"
#include "programs.h"

enum {
    BORDER_AT = 5,
    EDITS_AT = 109,
    EDIT_BYTES = 34,
    RATIO_AT = 2,
    MOST_EDITS = 1000,
    MOST_POINTS = 128,
    CORNERS = 4,
    WORD_BITS = 64,
    WORD_BYTES = 8,
    COUNT_AT = 16,
    LINES = 16,
    CELLS = 256,
    MOST_LINE_BYTES = 96
};

/* The versions of a file: a torn edit stays, or it is withdrawn. */
enum { STAYS = 1, WITHDRAWS = 2 };

static const uint64_t HALF = 0x3fe0000000000000;
static const uint64_t ONE = 0x3ff0000000000000;
static const uint64_t TWO = 0x4000000000000000;
static const uint64_t SIGN = 0x8000000000000000;

static const double MILLIONTH = 1.0 / 1000000.0;

static unsigned long files;

/* ---- the calls */

static struct question at_place(uint64_t s, uint64_t t)
{
    return (struct question){.of = SET_POINT, .s = s, .t = t};
}

static struct question at_cell(uint8_t cell)
{
    return (struct question){.of = CELL, .cell = cell};
}

/* Whether bits are those of a double from 0 to 1: none of these has greater bits than 1.0, but for -0.0, which is the sign alone. */
static int from_0_to_1(uint64_t bits)
{
    return bits <= ONE || bits == SIGN;
}

/* The refusal that the buffer, the file or the place brings by itself, or 0. */
static uint64_t refusal_of(const uint8_t *bytes, size_t length, struct question question, size_t room)
{
    if (room < answer_bytes(question))
        return GATEMAP_SHORT;
    if (length < EDITS_AT || length > GATEMAP_MOST_FILE_BYTES || (length - EDITS_AT) % EDIT_BYTES != 0)
        return GATEMAP_LENGTH;
    if (big_endian(bytes, COUNT_BYTES) != length - COUNT_BYTES)
        return GATEMAP_LENGTH;
    if (bytes[VERSION_AT] != STAYS && bytes[VERSION_AT] != WITHDRAWS)
        return GATEMAP_VERSION;
    for (size_t at = EDITS_AT; at < length; at += EDIT_BYTES)
        if (bytes[at + 1] > 3)
            return GATEMAP_HEADING;
    if (question.of == SET_POINT && !(from_0_to_1(question.s) && from_0_to_1(question.t)))
        return GATEMAP_OFF_MAP;
    return GATEMAP_DONE;
}

/* Whether a number may be answered where neither the buffer nor the file nor the place is refused. */
static int from_evaluation(uint64_t number, struct question question)
{
    return number == GATEMAP_DONE || number == GATEMAP_OPEN_SIDE || number == GATEMAP_BORDER || number == GATEMAP_RING ||
           (number == GATEMAP_NO_WEIGHT && question.of == SET_POINT);
}

static struct answer call(const uint8_t *bytes, size_t length, struct question question, size_t room)
{
    struct answer answer = call_twice(bytes, length, question, room);
    uint64_t refusal = refusal_of(bytes, length, question, room);
    check(refusal != 0 ? answer.number == refusal : from_evaluation(answer.number, question),
          "%d where %d is due, %zu bytes, room %zu", (int)answer.number, (int)refusal, length, room);
    return answer;
}

/* ---- floats in files */

static uint64_t number_at(const uint8_t *bytes)
{
    return big_endian(bytes, WORD_BYTES);
}

static double float_of(uint64_t bits)
{
    double number;
    memcpy(&number, &bits, sizeof number);
    return number;
}

static double float_at(const uint8_t *bytes)
{
    return float_of(number_at(bytes));
}

static uint64_t bits_of(double number)
{
    uint64_t bits;
    memcpy(&bits, &number, sizeof bits);
    return bits;
}

/* ---- the program */

/* What the program prints of a file, which fits a pipe. */
static size_t printed(const uint8_t *bytes, size_t length, char *text, size_t most)
{
    int ends[2];
    make_pipe(ends);
    stop_unless(write(ends[1], bytes, length) == (ssize_t)length, "write");
    close(ends[1]);
    size_t got = run(ends[0], PIPED, text, most);
    close(ends[0]);
    return got;
}

/* Whether the program prints this text of a file and nothing else. */
static int prints(const uint8_t *bytes, size_t length, const char *text, size_t text_length)
{
    static char out[MOST_CASE_BYTES];
    if (program == NULL)
        return 1;
    size_t got = printed(bytes, length, out, sizeof out);
    return got == text_length && memcmp(out, text, got) == 0;
}

/* The last line of a report, as the set-point's answer at (0.5, 0.5) has it. A refused file has no other. */
static size_t put_last_line(char *line, struct answer answer)
{
    const uint8_t *value = answer.bytes;
    if (answer.number == GATEMAP_DONE)
        return (size_t)snprintf(line, MOST_LINE_BYTES, "mid %016llx %016llx %016llx %016llx\n", (unsigned long long)number_at(value),
                                (unsigned long long)number_at(value + 8), (unsigned long long)number_at(value + 16),
                                (unsigned long long)number_at(value + 24));
    int of_file = GATEMAP_LENGTH <= answer.number && answer.number <= GATEMAP_HEADING;
    return (size_t)snprintf(line, MOST_LINE_BYTES, "%s refused %d\n", of_file ? "file" : "mid", (int)answer.number);
}

/* ---- files made here */

/* The head of a file of a version with so many edits: the square map with a border weight. */
static uint8_t *put_head(uint8_t *file, int version, uint64_t border, size_t edits)
{
    static const int corners[12] = {0, 0, 0, 1, 0, 0, 1, 1, 1, 0, 1, 1};
    uint8_t *at = put_number(file, 105 + EDIT_BYTES * edits, COUNT_BYTES);
    at = put_number(put_number(at, (uint64_t)version, 1), border, 8);
    for (int i = 0; i < 12; i++)
        at = put_number(at, corners[i] ? ONE : 0, 8);
    return at;
}

/* An edit to the right of a point. */
static uint8_t *put_edit(uint8_t *at, int point, uint64_t ratio)
{
    at = put_number(put_number(put_number(at, (uint64_t)point, 1), 1, 1), ratio, 8);
    for (int axis = 0; axis < 3; axis++)
        at = put_number(at, HALF, 8);
    return at;
}

/* The square map with border 1.0 and so many edits of ratio 2.0, which are all refused. The one of version 1 with one edit is document 01's. */
static size_t sample(uint8_t *file, int version, size_t edits)
{
    uint8_t *at = put_head(file, version, ONE, edits);
    for (size_t k = 0; k < edits; k++)
        at = put_edit(at, 0, TWO);
    return (size_t)(at - file);
}

static const uint8_t SAMPLE_VALUE[GATEMAP_VALUE_BYTES] = {0x3f, 0xe0, 0, 0, 0, 0, 0, 0, 0x3f, 0xe0, 0, 0, 0, 0, 0, 0,
                                                          0x3f, 0xe0, 0, 0, 0, 0, 0, 0, 0x3f, 0xec, 0x20, 0, 0, 0, 0, 0};

/*
 * The square map with border 1.0 and two edits to the right of corner 0, at ratio 0.0 and at 0.5. The first is torn. Where it stays, the second parts
 * the interval of 0.0 to its point, and is torn as well. Where it is withdrawn, the second is done and has its number.
 */
static size_t torn_sample(uint8_t *file, int version)
{
    uint8_t *at = put_edit(put_edit(put_head(file, version, ONE, 2), 0, 0), 0, HALF);
    return (size_t)(at - file);
}

/* What stands before the last line of its report. */
static const char *torn_lines(int version)
{
    return version == STAYS ? "edit 1 refused 8\nedit 2 refused 8\nmade 6 listed 4 links 6\nopen 4 0\nopen 5 0\n"
                            : "edit 1 refused 8\nmade 5 listed 5 links 5\nopen 4 0\n";
}

/*
 * What stands before the last line of a report, for a sample with at most one byte changed. The ratios decide: one outside 0 to 1 is refused;
 * any other makes point 4, open above, between corners 0 and 1, and is torn within a millionth of corner 0, which has the link to corner 3. Withdrawn,
 * it makes none.
 */
static size_t put_first_lines(char *text, const uint8_t *bytes, size_t length)
{
    size_t end = 0;
    const char *rest = "made 4 listed 4 links 4\n";
    for (size_t edit = 1, at = EDITS_AT; at < length; edit++, at += EDIT_BYTES) {
        double ratio = float_at(bytes + at + RATIO_AT);
        int refused = !(0 <= ratio && ratio <= 1), torn = !refused && ratio <= MILLIONTH;
        if (refused || torn)
            end += (size_t)snprintf(text + end, MOST_LINE_BYTES, "edit %zu refused %d\n", edit, torn ? GATEMAP_TORN : GATEMAP_RATIO);
        if (!refused && !(torn && bytes[VERSION_AT] == WITHDRAWS))
            rest = torn ? "made 5 listed 4 links 5\nopen 4 0\n" : "made 5 listed 5 links 5\nopen 4 0\n";
    }
    return end + (size_t)snprintf(text + end, MOST_LINE_BYTES, "%s", rest);
}

/* The set-point at (0.5, 0.5), which the program's report must have too, behind the lines that the text has so far. */
static struct answer in_the_middle(const uint8_t *bytes, size_t length, char *text, size_t end)
{
    struct answer answer = call(bytes, length, at_place(HALF, HALF), GATEMAP_VALUE_BYTES);
    end += put_last_line(text + end, answer);
    check(prints(bytes, length, text, end), "the program prints of %zu bytes something other than\n%.*s", length, (int)end, text);
    return answer;
}

/* ---- which points reach a cell, by their outer knots */

/* The first and the last of a point's knots one way, and both ways. */
struct span {
    double first, last;
};

struct outer {
    struct span s, t;
};

/* Whether a double from a line of the grid on and below the next one lies in a span, first included and last excluded: the least that could does. */
static int meets(struct span span, int line)
{
    double from = line / (double)LINES, to = (line + 1) / (double)LINES;
    double least = span.first > from ? span.first : from;
    return span.first <= least && least < span.last && least < to;
}

/* What is written of a cell where so many points have these outer knots and are all listed. */
static void put_cell(uint8_t *out, const struct outer *outer, int listed, uint8_t cell)
{
    uint64_t words[2] = {0, 0}, count = 0;
    for (int n = 0; n < listed; n++)
        if (meets(outer[n].s, cell % LINES) && meets(outer[n].t, cell / LINES)) {
            words[n / WORD_BITS] |= (uint64_t)1 << n % WORD_BITS;
            count++;
        }
    put_number(put_number(put_number(out, words[0], WORD_BYTES), words[1], WORD_BYTES), count, 1);
}

/* Asks for a cell of a file whose listed points have these outer knots. Only the file can be refused. */
static uint64_t ask_cell(const uint8_t *bytes, size_t length, const struct outer *outer, int listed, uint8_t cell)
{
    uint8_t due[GATEMAP_CELL_BYTES];
    struct answer answer = call(bytes, length, at_cell(cell), GATEMAP_CELL_BYTES);
    check(answer.number == refusal_of(bytes, length, at_cell(cell), GATEMAP_CELL_BYTES), "cell %d is refused %d", cell, (int)answer.number);
    put_cell(due, outer, listed, cell);
    check(answer.number != GATEMAP_DONE || memcmp(answer.bytes, due, sizeof due) == 0, "cell %d: words %llx %llx count %d", cell,
          (unsigned long long)number_at(answer.bytes), (unsigned long long)number_at(answer.bytes + WORD_BYTES), answer.bytes[COUNT_AT]);
    return answer.number;
}

static void every_cell(const uint8_t *bytes, size_t length, const struct outer *outer, int listed)
{
    for (int cell = 0; cell < CELLS; cell++)
        check(ask_cell(bytes, length, outer, listed, (uint8_t)cell) == GATEMAP_DONE, "a file made here is refused");
}

/* The outer knots of every corner where no edit is done, by the border's weight. */
static struct outer of_border(double border)
{
    struct span span = {-border, 1 + border};
    return (struct outer){span, span};
}

/*
 * How many points are listed of a sample with at most one byte changed, and their outer knots. Where the edit is done or torn, the border is 1.0,
 * and corner 0 ends at about 1 across and corner 1 starts at about 0: they reach every cell, as with the 2 and the -1 that are given here.
 */
static int sample_outer(const uint8_t *bytes, size_t length, struct outer *outer)
{
    int listed = CORNERS;
    for (size_t at = EDITS_AT; at < length; at += EDIT_BYTES) {
        double ratio = float_at(bytes + at + RATIO_AT);
        listed += MILLIONTH < ratio && ratio <= 1;
    }
    for (int n = 0; n < listed; n++)
        outer[n] = of_border(float_at(bytes + BORDER_AT));
    return listed;
}

/* A cell of a sample with at most one byte changed, another one each time. */
static uint64_t next_cell(const uint8_t *bytes, size_t length)
{
    static uint8_t cell;
    static struct outer outer[MOST_POINTS];
    int valid = refusal_of(bytes, length, at_cell(++cell), GATEMAP_CELL_BYTES) == GATEMAP_DONE;
    return ask_cell(bytes, length, outer, valid ? sample_outer(bytes, length, outer) : 0, cell);
}

/* How many edits of ratio 0.0 stand in version 2 before each edit of the line. They are torn at corner 0, whatever stands on its right. */
enum { TORN_BEFORE = 1 };

/*
 * A map of 128 points: 124 edits halve the lower edge again and again, from left to right, and all sums are exact. A point of the edge has for its
 * outer knots across the second points to its left and right, or else the border's; upwards it has the border's, as the other two corners have.
 */
static size_t line_of_points(uint8_t *file, int version, double border, struct outer *outer)
{
    int torn_before = version == WITHDRAWS ? TORN_BEFORE : 0;
    uint8_t *at = put_head(file, version, bits_of(border), (size_t)((MOST_POINTS - CORNERS) * (torn_before + 1)));
    int line[MOST_POINTS] = {0, 1}, on_line = 2;
    double across[MOST_POINTS] = {0, 1};
    for (int made = CORNERS; made < MOST_POINTS;) {
        int before[MOST_POINTS], last = on_line - 1;
        memcpy(before, line, sizeof before);
        on_line = 0;
        for (int i = 0; i <= last; i++) {
            line[on_line++] = before[i];
            if (i < last && made < MOST_POINTS) {
                for (int torn = 0; torn < torn_before; torn++)
                    at = put_edit(at, 0, 0);
                at = put_edit(at, before[i], HALF);
                across[made] = (across[before[i]] + across[before[i + 1]]) / 2;
                line[on_line++] = made++;
            }
        }
    }
    for (int n = 0; n < MOST_POINTS; n++)
        outer[n] = of_border(border);
    for (int i = 0; i < on_line; i++) {
        if (i >= 2)
            outer[line[i]].s.first = across[line[i - 2]];
        if (i + 2 < on_line)
            outer[line[i]].s.last = across[line[i + 2]];
    }
    return (size_t)(at - file);
}

/* ---- the files, one after the other */

static uint64_t middle(const uint8_t *bytes, size_t length)
{
    static char text[MOST_CASE_BYTES];
    int valid = refusal_of(bytes, length, at_place(HALF, HALF), GATEMAP_VALUE_BYTES) == GATEMAP_DONE;
    return in_the_middle(bytes, length, text, valid ? put_first_lines(text, bytes, length) : 0).number;
}

static uint8_t file[MOST_CASE_BYTES];

static const size_t EDITS[] = {0, 1, 2, MOST_EDITS - 1, MOST_EDITS, MOST_EDITS + 1};

enum { EDITS_TRIED = sizeof EDITS / sizeof EDITS[0] };

static void counts_of_edits(trial *number_of, int version)
{
    for (int i = 0; i < EDITS_TRIED; i++) {
        size_t length = sample(file, version, EDITS[i]);
        check(number_of(file, length) == (EDITS[i] <= MOST_EDITS ? GATEMAP_DONE : GATEMAP_LENGTH), "%zu edits", EDITS[i]);
        counts_one_off(number_of, file, length);
    }
}

/* The versions before and after those that there are, and the last. */
static void other_versions(trial *number_of)
{
    static const int others[] = {STAYS - 1, WITHDRAWS + 1, UINT8_MAX};
    for (size_t i = 0; i < sizeof others / sizeof others[0]; i++)
        check(number_of(file, sample(file, others[i], 1)) == GATEMAP_VERSION, "version %d", others[i]);
}

/* A buffer of every length: where there is room, what is written is what the longest gets. */
static void every_room(struct question question, int version)
{
    struct answer longest = call(file, sample(file, version, 1), question, MOST_ROOM);
    for (size_t room = 0; room <= MOST_ROOM; room++) {
        size_t length = sample(file, version, 1);
        struct answer answer = call(file, length, question, room);
        check(answer.number == (room < answer_bytes(question) ? GATEMAP_SHORT : GATEMAP_DONE), "a buffer of %zu", room);
        check(answer.number != GATEMAP_DONE || memcmp(answer.bytes, longest.bytes, answer_bytes(question)) == 0,
              "what is written to a buffer of %zu", room);
        file[VERSION_AT] = WITHDRAWS + 1;
        call(file, length, question, room);
        call(file, 3, question, room);
    }
}

static void files_made_here(trial *number_of, struct question question)
{
    for (int version = STAYS; version <= WITHDRAWS; version++) {
        size_t length = sample(file, version, 1);
        every_prefix(number_of, file, length);
        every_change_of_a_byte(number_of, file, length);
        counts_of_edits(number_of, version);
        every_room(question, version);
    }
    other_versions(number_of);
}

static void sample_values(int version)
{
    for (int i = 0; i < EDITS_TRIED && EDITS[i] <= MOST_EDITS; i++) {
        struct answer answer = call(file, sample(file, version, EDITS[i]), at_place(HALF, HALF), GATEMAP_VALUE_BYTES);
        check(answer.number == GATEMAP_DONE && memcmp(answer.bytes, SAMPLE_VALUE, sizeof SAMPLE_VALUE) == 0,
              "the value after %zu refused edits", EDITS[i]);
    }
}

/* After a withdrawn edit the value is that of the file without it; after a torn one that stays it is another. */
static void torn_value(int version)
{
    static char text[MOST_CASE_BYTES];
    size_t end = (size_t)snprintf(text, sizeof text, "%s", torn_lines(version));
    struct answer torn = in_the_middle(file, torn_sample(file, version), text, end);
    size_t without = (size_t)(put_edit(put_head(file, version, ONE, 1), 0, HALF) - file);
    struct answer answer = call(file, without, at_place(HALF, HALF), GATEMAP_VALUE_BYTES);
    check(torn.number == GATEMAP_DONE && answer.number == GATEMAP_DONE, "a torn edit, version %d", version);
    check((memcmp(torn.bytes, answer.bytes, sizeof answer.bytes) == 0) == (version == WITHDRAWS), "the value after a torn edit, version %d",
          version);
}

static void sample_cells(int version)
{
    static struct outer outer[MOST_POINTS];
    for (int i = 0; i < EDITS_TRIED && EDITS[i] <= MOST_EDITS; i++) {
        size_t length = sample(file, version, EDITS[i]);
        every_cell(file, length, outer, sample_outer(file, length, outer));
    }
}

/*
 * Where torn points stay, the last knot of corner 0 across is their 0.0. Corner 1 starts at 0.0, and where the first is withdrawn corner 0 ends at 1.0:
 * these reach every cell, as with the -1 and the 2 that are given here.
 */
static void torn_cells(int version)
{
    struct outer outer[CORNERS + 1];
    for (int n = 0; n <= CORNERS; n++)
        outer[n] = of_border(1);
    if (version == STAYS)
        outer[0].s.last = 0;
    every_cell(file, torn_sample(file, version), outer, version == STAYS ? CORNERS : CORNERS + 1);
}

/*
 * Borders for the line. Upwards all points have the same first and the same last knot: outside the map; at its edges; on the lines 1/16 and 15/16;
 * the first one double below 1/16, and above; the last one double above 15/16, and below; further within the map; equal; falling; infinite; NaN.
 */
static const double BORDERS[] = {1, 0, -0x1p-4, -0x1.fffffffffffffp-5, -0x1.0000000000001p-4, -0x1.ffffffffffffp-5, -0x1.0000000000008p-4,
                                 -0.25, -0.5, -1, INFINITY, -INFINITY, NAN};

enum { BORDERS_TRIED = sizeof BORDERS / sizeof BORDERS[0] };

static void line_cells(int version)
{
    static struct outer outer[MOST_POINTS];
    for (int i = 0; i < BORDERS_TRIED; i++) {
        size_t length = line_of_points(file, version, BORDERS[i], outer);
        every_cell(file, length, outer, MOST_POINTS);
    }
}

/* ---- stored files */

struct stored {
    const uint8_t *bytes, *text, *set_points, *cells;
    size_t length, text_length;
    int set_point_count, cell_count;
};

enum { STORED_SET_POINT_BYTES = 18 + GATEMAP_VALUE_BYTES, STORED_CELL_BYTES = 3 + GATEMAP_CELL_BYTES };

/*
 * The counts of a report by the answers of its edits, as far as it shows them: an edit without a line is done, 8 is torn. Each done edit, and each torn
 * one that stays, makes a point and a link, opens at most two sides, and each link that it infers takes two of them away again.
 */
static void report_counts(const char *text, size_t length, size_t edits, int version)
{
    static char copy[MOST_CASE_BYTES];
    long done = (long)edits, torn = 0, openings = 0, made = 0, listed = 0, links = 0;
    memcpy(copy, text, length);
    copy[length] = '\0';
    for (char *line = strtok(copy, "\n"); line != NULL; line = strtok(NULL, "\n")) {
        int number = 0;
        if (sscanf(line, "edit %*d refused %d", &number) == 1) {
            done--;
            torn += number == GATEMAP_TORN && version == STAYS;
        }
        sscanf(line, "made %ld listed %ld links %ld", &made, &listed, &links);
        openings += *line == 'o';
    }
    long inferred = links - made, opened = openings + 2 * inferred;
    check(made == 4 + done + torn && listed == 4 + done, "stored file %lu: %ld made, %ld listed with %ld done, %ld torn", files, made, listed,
          done, torn);
    check(0 <= inferred && opened <= 2 * (done + torn), "stored file %lu: %ld inferred, %ld opened", files, inferred, opened);
}

static void stored_report(const struct stored *stored)
{
    char line[MOST_LINE_BYTES];
    const char *text = (const char *)stored->text;
    size_t end = put_last_line(line, call(stored->bytes, stored->length, at_place(HALF, HALF), GATEMAP_VALUE_BYTES));
    check(end <= stored->text_length && memcmp(text + stored->text_length - end, line, end) == 0,
          "the last line of stored file %lu is not %s", files, line);
    check(prints(stored->bytes, stored->length, text, stored->text_length), "the text of stored file %lu", files);
    if (*text != 'f')
        report_counts(text, stored->text_length, (stored->length - EDITS_AT) / EDIT_BYTES, stored->bytes[VERSION_AT]);
}

/* A call on a stored file: its answer's number and what it writes are stored. */
static void stored_call(const struct stored *stored, struct question question, const uint8_t *room)
{
    struct answer answer = call(stored->bytes, stored->length, question, room[0]);
    check(answer.number == room[1], "stored file %lu: %d where %d is stored", files, (int)answer.number, room[1]);
    check(memcmp(answer.bytes, room + 2, answer_bytes(question)) == 0, "stored file %lu: what is written", files);
}

static void stored_set_points(const struct stored *stored)
{
    const uint8_t *at = stored->set_points;
    for (int left = stored->set_point_count; left > 0; left--, at += STORED_SET_POINT_BYTES)
        stored_call(stored, at_place(number_at(at), number_at(at + 8)), at + 16);
    stored_report(stored);
}

static void stored_cells(const struct stored *stored)
{
    const uint8_t *at = stored->cells;
    for (int left = stored->cell_count; left > 0; left--, at += STORED_CELL_BYTES)
        stored_call(stored, at_cell(at[0]), at + 1);
}

static void stored_files(const char *path, void each(const struct stored *))
{
    static uint8_t rest[MOST_CASE_BYTES];
    size_t size;
    FILE *cases = fopen(path, "rb");
    stop_unless(cases != NULL, path);
    for (files = 0; next_case(cases, rest, &size); files++) {
        struct stored stored;
        stored.length = pair_at(rest);
        stored.bytes = rest + 2;
        stored.text_length = pair_at(stored.bytes + stored.length);
        stored.text = stored.bytes + stored.length + 2;
        stored.set_points = stored.text + stored.text_length + 1;
        stored.set_point_count = stored.set_points[-1];
        stored.cells = stored.set_points + stored.set_point_count * STORED_SET_POINT_BYTES + 1;
        stored.cell_count = stored.cells[-1];
        check(stored.cells + stored.cell_count * STORED_CELL_BYTES == rest + size, "stored file %lu: its length", files);
        each(&stored);
    }
    fclose(cases);
}

/* ---- places on the map and off it */

enum {
    MAGNITUDES = 8,
    BESIDE = 3,
    EDGES = 2 * BESIDE * MAGNITUDES,
    PLACES = EDGES * EDGES,
    PLACES_DRAWN = 100000,
    ORDER = 4
};

/*
 * Bits of s and t: some doubles, those at the edges of the map among them, with either sign, and the bits before and behind theirs. Before those of 0.0 and
 * -0.0, and behind those of the infinities, stand NaNs.
 */
static uint64_t edge(int k)
{
    const uint64_t magnitudes[MAGNITUDES] = {0, 0x0010000000000000, HALF, ONE, TWO, 0x4014000000000000, 0x7ff0000000000000, 0x7ff8000000000000};
    return (magnitudes[k / (2 * BESIDE)] | (k % 2 ? SIGN : 0)) + (uint64_t)(k / 2 % BESIDE) - 1;
}

/* Every pair of them. */
static struct question at_edges(int place)
{
    return at_place(edge(place / EDGES), edge(place % EDGES));
}

/* Bits drawn, the same in every run (the generator of Ticket 9 of document 02); of a double from 0 to 1 where that is asked for. */
static uint64_t drawn_bits(int on_map)
{
    static uint64_t drawn = 20030727;
    drawn ^= drawn << 13;
    drawn ^= drawn >> 7;
    drawn ^= drawn << 17;
    return on_map ? drawn % (ONE + 1) : drawn;
}

/* The basis function of an order, by the recursion of Cox and de Boor: a term with a zero denominator is 0. */
static double basis(const double *knots, int order, double u)
{
    if (order == 1)
        return knots[0] <= u && u < knots[1];
    double rises = knots[order - 1] - knots[0], falls = knots[order] - knots[1];
    return (rises == 0 ? 0 : (u - knots[0]) / rises * basis(knots, order - 1, u)) +
           (falls == 0 ? 0 : (knots[order] - u) / falls * basis(knots + 1, order - 1, u));
}

/* The sums one way of the sample's basis functions: of both corners, and of the far one. */
static void sums(double u, double *both, double *far)
{
    static const double near_knots[ORDER + 1] = {-1, -1, 0, 1, 2}, far_knots[ORDER + 1] = {-1, 0, 1, 2, 2};
    *far = basis(far_knots, ORDER, u);
    *both = basis(near_knots, ORDER, u) + *far;
}

/* A set-point of the sample: everywhere on the map it has a weight, and what the recursion gives, but for rounding. */
static void sample_place(size_t length, struct question place)
{
    struct answer answer = call(file, length, place, GATEMAP_VALUE_BYTES);
    if (answer.number == GATEMAP_OFF_MAP)
        return;
    double s = float_of(place.s), t = float_of(place.t), across, right, up, upper;
    sums(s, &across, &right);
    sums(t, &up, &upper);
    const double due[] = {right / across, upper / up, upper / up, across * up};
    int near = answer.number == GATEMAP_DONE;
    for (int i = 0; i < 4; i++)
        near &= fabs(float_at(answer.bytes + 8 * i) - due[i]) < 1e-12;
    check(near, "the sample at (%a, %a): %d", s, t, (int)answer.number);
}

static void sample_places(int version)
{
    size_t length = sample(file, version, 1);
    for (int place = 0; place < PLACES; place++)
        sample_place(length, at_edges(place));
    for (int i = 0; i < PLACES_DRAWN; i++) {
        uint64_t s = drawn_bits(i & 1), t = drawn_bits(i & 2);
        sample_place(length, at_place(s, t));
    }
}

/* Every mixture of a wrong length, version and direction, at every place, with buffers that are too short and others. */
static void mixtures(int version)
{
    enum { LENGTH = 1, VERSION = 2, DIRECTION = 4, ALL = LENGTH | VERSION | DIRECTION };
    static const size_t rooms[] = {0, GATEMAP_VALUE_BYTES - 1, GATEMAP_VALUE_BYTES, MOST_ROOM};
    for (int mixture = 0; mixture <= ALL; mixture++) {
        size_t length = sample(file, version, 1) - (mixture & LENGTH ? 1 : 0);
        if (mixture & VERSION)
            file[VERSION_AT] = WITHDRAWS + 1;
        if (mixture & DIRECTION)
            file[EDITS_AT + 1] = 4;
        for (int place = 0; place < PLACES; place++)
            for (size_t i = 0; i < sizeof rooms / sizeof rooms[0]; i++)
                call(file, length, at_edges(place), rooms[i]);
    }
}

/* Which numbers a stored file that was asked off the map has in the middle. */
static int asked_beyond[GATEMAP_OFF_MAP + 1];

/* A stored file across the map and off it, and upwards so. On the map it has a value or no weight, or else one refusal everywhere. */
static void stored_places(const struct stored *stored)
{
    uint64_t middle = call(stored->bytes, stored->length, at_place(HALF, HALF), GATEMAP_VALUE_BYTES).number;
    int evaluated = middle == GATEMAP_DONE || middle == GATEMAP_NO_WEIGHT;
    for (int k = 0; k < 2 * EDGES; k++) {
        struct question place = k % 2 ? at_place(edge(k / 2), HALF) : at_place(HALF, edge(k / 2));
        uint64_t number = call(stored->bytes, stored->length, place, GATEMAP_VALUE_BYTES).number;
        int alike = evaluated ? number == GATEMAP_DONE || number == GATEMAP_NO_WEIGHT : number == middle;
        check(alike || number == GATEMAP_OFF_MAP, "stored file %lu: %d, and %d in the middle", files, (int)number, (int)middle);
    }
    if (middle <= GATEMAP_OFF_MAP)
        asked_beyond[middle] = 1;
}

/* Files of every number before and behind 20 in the order must have been among them. */
static void every_number_beyond(void)
{
    static const int numbers[] = {GATEMAP_DONE,    GATEMAP_OPEN_SIDE, GATEMAP_BORDER,  GATEMAP_RING,
                                  GATEMAP_LENGTH, GATEMAP_VERSION,   GATEMAP_HEADING, GATEMAP_NO_WEIGHT};
    for (size_t i = 0; i < sizeof numbers / sizeof numbers[0]; i++)
        check(asked_beyond[numbers[i]], "no stored file has %d in the middle", numbers[i]);
}

/* ---- both calls at one place */

/*
 * The cell of a place is refused as its set-point is, 15 aside; and where no point reaches the cell, there is no weight. With a NaN border this is not so:
 * a point with a NaN for its first knot reaches no cell, and may have a weight.
 */
static void agree(const uint8_t *bytes, size_t length, double s, double t)
{
    if (!(0 <= s && s < 1 && 0 <= t && t < 1))
        return;
    uint8_t cell = (uint8_t)(LINES * (int)(LINES * t) + (int)(LINES * s));
    struct answer value = call(bytes, length, at_place(bits_of(s), bits_of(t)), GATEMAP_VALUE_BYTES);
    struct answer words = call(bytes, length, at_cell(cell), GATEMAP_CELL_BYTES);
    int has_words = value.number == GATEMAP_DONE || value.number == GATEMAP_NO_WEIGHT;
    check(words.number == (has_words ? GATEMAP_DONE : value.number), "(%g, %g) is %d and its cell %d", s, t, (int)value.number,
          (int)words.number);
    int reached = !has_words || words.bytes[COUNT_AT] > 0 || isnan(float_at(bytes + BORDER_AT));
    check(reached || value.number == GATEMAP_NO_WEIGHT, "(%g, %g) has a weight, and no point reaches it", s, t);
}

/* The greatest double below a positive one. */
static double below(double number)
{
    return float_of(bits_of(number) - 1);
}

/* At the first and at the last place of every cell. */
static void line_agrees(int version)
{
    static struct outer outer[MOST_POINTS];
    for (int i = 0; i < BORDERS_TRIED; i++) {
        size_t length = line_of_points(file, version, BORDERS[i], outer);
        for (int row = 0; row < LINES; row++)
            for (int column = 0; column < LINES; column++) {
                agree(file, length, column / (double)LINES, row / (double)LINES);
                agree(file, length, below((column + 1) / (double)LINES), below((row + 1) / (double)LINES));
            }
    }
}

static void stored_agrees(const struct stored *stored)
{
    const uint8_t *at = stored->set_points;
    agree(stored->bytes, stored->length, 0.5, 0.5);
    for (int left = stored->set_point_count; left > 0; left--, at += STORED_SET_POINT_BYTES)
        agree(stored->bytes, stored->length, float_at(at), float_at(at + 8));
}

/* ---- all calls */

static void *set_points(void *cases)
{
    files_made_here(middle, at_place(HALF, HALF));
    for (int version = STAYS; version <= WITHDRAWS; version++) {
        sample_values(version);
        torn_value(version);
        sample_places(version);
        mixtures(version);
    }
    stored_files(cases, stored_set_points);
    stored_files(cases, stored_places);
    every_number_beyond();
    return NULL;
}

static void *cells(void *cases)
{
    files_made_here(next_cell, at_cell(0));
    for (int version = STAYS; version <= WITHDRAWS; version++) {
        sample_cells(version);
        torn_cells(version);
        line_cells(version);
    }
    stored_files(cases, stored_cells);
    return NULL;
}

static void *both_at_a_place(void *cases)
{
    for (int version = STAYS; version <= WITHDRAWS; version++)
        line_agrees(version);
    stored_files(cases, stored_agrees);
    return NULL;
}

int main(int argc, char **argv)
{
    if (argc < 2 || argc > 3) {
        fputs("usage: host_test CASES [PROGRAM]\n", stderr);
        return 2;
    }
    program = argc == 3 ? argv[2] : NULL;
    make_rooms();
    size_t for_set_points = stack_touched(set_points, argv[1]);
    size_t for_cells = stack_touched(cells, argv[1]);
    stack_touched(both_at_a_place, argv[1]);
    printf("%lu calls, %lu runs of the program, %lu stored files, %zu bytes of stack for a set-point, %zu for a cell: %lu wrong\n",
           calls, runs, files, for_set_points, for_cells, wrong);
    return files == 0 || wrong != 0 || for_set_points > GATEMAP_STACK_BYTES || for_cells > for_set_points;
}
