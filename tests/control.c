/*
 * control PROGRAM WORD CASES FOLDER: changes stored answers, and says how many changes of how many kinds of answers the program saw.
 *
 * PROGRAM replays the file `cases` of the folder that it is run in and says `right N wrong M`. CASES is its stored file, in the format of
 * WORD (basis, store, map, file, season or load; oracle/README.md has them). For each kind of answer the smallest case that has one is taken: alone it
 * must be right, and with any byte of that answer flipped, or two openings exchanged, it must be wrong. Among all cases, one that is flipped
 * must be the only wrong one. A case that is cut, at whatever length, or is a byte longer must be wrong. What PROGRAM is given is written in
 * FOLDER.
 */
#define _POSIX_C_SOURCE 200809L
#include <stdarg.h>
#include <stdint.h>
#include <stdio.h>
#include <stdlib.h>
#include <string.h>
#include <sys/wait.h>
#include <unistd.h>

#define TWO_OPENINGS "openings: the first two"

enum { MOST_PARTS = 1000, MOST_CASES = 100000, NAME_BYTES = 64, BASIS_BYTES = 56, OPENING_BYTES = 2, SIDES = 4, TORN = 8, VERSION_AT = 4 };
enum { CORNERS = 4, EDIT_BYTES = 34, MOST_EDITS = 1000 };

/* ---- what is read */
static const char *program, *folder;
static uint8_t *stored;
static size_t stored_bytes;

/* A case's bytes, those of its length included. */
static struct {
    size_t at, bytes;
} cases[MOST_CASES];
static size_t case_count;

/* An answer, or a part of one: where it stands in its case, which is the smallest that has one of the name. */
static struct part {
    char name[NAME_BYTES];
    size_t number, at, bytes;
} parts[MOST_PARTS];
static size_t part_count;

static size_t changes;

static void fail(const char *words, ...)
{
    va_list list;
    va_start(list, words);
    fprintf(stderr, "control, %s: ", program);
    vfprintf(stderr, words, list);
    fputc('\n', stderr);
    exit(1);
}

/* ---- a case, read from its start */
static size_t now;

static const uint8_t *here(size_t bytes)
{
    size_t at = now;
    if (now + bytes > cases[case_count].bytes)
        fail("case %zu ends too early", case_count);
    now += bytes;
    return stored + cases[case_count].at + at;
}

static size_t byte(void)
{
    return *here(1);
}

static size_t pair(void)
{
    const uint8_t *at = here(2);
    return (size_t)at[0] * 256 + at[1];
}

static void skip(size_t bytes)
{
    here(bytes);
}

/* The next so many bytes are an answer of a name. */
static void answer(size_t bytes, const char *words, ...)
{
    char name[NAME_BYTES];
    va_list list;
    va_start(list, words);
    vsnprintf(name, sizeof name, words, list);
    va_end(list);
    size_t found = 0;
    while (found < part_count && strcmp(parts[found].name, name) != 0)
        found++;
    if (found == MOST_PARTS)
        fail("too many kinds of answers");
    if (found == part_count || cases[case_count].bytes < cases[parts[found].number].bytes) {
        memcpy(parts[found].name, name, sizeof name);
        parts[found].number = case_count;
        parts[found].at = now;
        parts[found].bytes = bytes;
    }
    if (found == part_count)
        part_count++;
    skip(bytes);
}

/* An answer's number, after which more may stand. */
static size_t number(const char *call)
{
    size_t answered = byte();
    now--;
    answer(1, "%s %zu: number", call, answered);
    return answered;
}

/* A call at a place: its number, and after 0 a value. */
static void value(const char *call)
{
    skip(16);
    if (number(call) == 0) {
        answer(8, "%s: x", call);
        answer(8, "%s: y", call);
        answer(8, "%s: z", call);
        answer(8, "%s: weight", call);
    }
}

static void row(const char *what)
{
    for (int knot = 0; knot < 10; knot++)
        answer(8, "%s: %c%d", what, knot < 5 ? 's' : 't', knot % 5 + 1);
}

static void direct_call(size_t kind)
{
    static const char *const words[] = {
        "point made", "connect", "remove_connection", "remove_edge_condition", "set_edge_con_weight", "set_knot_coordinates", "walk"};
    static const size_t arguments[] = {8, 11, 2, 2, 10, 17, 3};
    if (kind > 6)
        fail("case %zu has a call of another kind", case_count);
    skip(arguments[kind]);
    if (number(words[kind]) == 0 && kind == 6) {
        answer(1, "walk: point");
        answer(1, "walk: moves");
        answer(8, "walk: sum");
    }
}

/* The points of a store; what a side of its kind has not is no answer. */
static size_t store(void)
{
    size_t made = byte();
    now--;
    answer(1, "points made");
    for (size_t n = 0; n < made; n++) {
        for (int d = 0; d < SIDES; d++) {
            size_t kind = byte();
            now--;
            answer(1, "side %d: kind %zu", d, kind);
            if (kind == 0) {
                answer(1, "side %d: point linked", d);
                answer(8, "side %d: interval", d);
            } else if (kind == 1) {
                skip(1);
                answer(8, "side %d: weight", d);
            } else {
                skip(9);
            }
        }
        answer(8, "coordinate s");
        answer(8, "coordinate t");
    }
    return made;
}

static void flag(const char *what)
{
    size_t set = byte();
    now--;
    answer(1, "%s: %zu", what, set);
}

/* An insertion, and how many points it leaves. */
static size_t insertion(const char *call, int withdraws)
{
    skip(34);
    size_t answered = number(call);
    if (answered != 0 && answered != TORN)
        return 0;
    answer(1, "%s %zu: opened", call, answered);
    answer(1, "%s %zu: inferred", call, answered);
    return answered == 0 || !withdraws;
}

static void map_call(size_t *made)
{
    size_t kind = byte();
    switch (kind) {
    case 0:
        *made += insertion("insertion", 0);
        break;
    case 1: {
        skip(2);
        size_t length = byte();
        if (number("ray") == 0)
            for (size_t entry = 1; entry <= length; entry++)
                answer(8, "ray: entry %zu", entry);
        break;
    }
    case 2:
        skip(1);
        if (number("knots") == 0)
            row("knots");
        break;
    case 3:
        value("evaluation");
        break;
    case 4:
        number("all knots");
        break;
    case 5: {
        answer(2, "openings: count");
        now -= 2;
        size_t openings = pair();
        if (openings > 1) {
            answer(2 * OPENING_BYTES, TWO_OPENINGS);
            now -= 2 * OPENING_BYTES;
        }
        for (; openings > 0; openings--) {
            answer(1, "openings: point");
            size_t direction = byte();
            now--;
            answer(1, "openings: direction %zu", direction);
        }
        break;
    }
    case 6:
        value("lent value");
        break;
    case 7:
        value("set-point");
        break;
    case 8:
        skip(1);
        if (number("cell") == 0) {
            answer(8, "cell: first word");
            answer(8, "cell: second word");
            answer(1, "cell: count");
        }
        break;
    case 9:
        answer(1, "counts: points made");
        answer(1, "counts: points listed");
        answer(2, "counts: links");
        answer(2, "counts: borders");
        break;
    case 10:
        *made += insertion("withdrawing insertion", 1);
        break;
    case 11:
        skip(9);
        number("set_pull");
        break;
    case 12:
        value("lent set-point");
        break;
    default: {
        if (kind < 16)
            fail("case %zu has a call of kind %zu", case_count, kind);
        direct_call(kind - 16);
        size_t answer_at = now - 1;
        if (kind == 16 && stored[cases[case_count].at + answer_at] == 0)
            ++*made;
    }
    }
}

/* ---- the six formats */
static void read_basis(void)
{
    skip(48);
    answer(8, "result");
}

static void read_store(void)
{
    answer(2, "length");
    answer(2, "number of calls");
    now -= 2;
    for (size_t calls = pair(); calls > 0; calls--)
        direct_call(byte());
    store();
}

static void read_map(void)
{
    answer(2, "length");
    skip(8 + 4 * 24);
    answer(2, "number of calls");
    now -= 2;
    size_t made = 4;
    for (size_t calls = pair(); calls > 0; calls--)
        map_call(&made);
    if (store() != made)
        fail("case %zu has another number of points", case_count);
    size_t listed = 0;
    for (size_t n = 0; n < made; n++) {
        listed += byte();
        now--;
        flag("listed");
    }
    size_t kept = byte();
    now--;
    flag("kept");
    for (size_t n = 0; n < made; n++) {
        answer(8, "position: x");
        answer(8, "position: y");
        answer(8, "position: z");
        answer(8, "pull");
    }
    for (size_t n = 0; n < kept * listed; n++)
        row("row kept");
}

/* A line of a report, named by its words: `edit K refused N` and the like. */
static void line(const char *report, const uint8_t *text, size_t bytes)
{
    char copy[NAME_BYTES];
    size_t length = bytes < sizeof copy ? bytes : sizeof copy - 1;
    memcpy(copy, text, length);
    copy[length] = 0;
    char first[NAME_BYTES] = "";
    sscanf(copy, "%15s", first);
    const char *refused = strstr(copy, "refused");
    int refusal = 0;
    if (refused && sscanf(refused, "refused %d", &refusal) == 1)
        answer(bytes, "%s: %s refused %d", report, first, refusal);
    else
        answer(bytes, "%s: %s", report, first);
}

/* A list of C calls: how many bytes the arguments and the buffer's length take, and how many are stored of the buffer. */
static void host_calls(const char *call, size_t arguments, size_t buffer)
{
    answer(1, "%s: how many", call);
    now--;
    for (size_t calls = byte(); calls > 0; calls--) {
        skip(arguments);
        size_t answered = number(call);
        answer(buffer, "%s %zu: buffer", call, answered);
    }
}

static void read_file(void)
{
    answer(2, "length");
    answer(2, "length of the file");
    now -= 2;
    size_t file_length = pair();
    const uint8_t *file = here(file_length);
    const char *report = file_length > VERSION_AT && file[VERSION_AT] == 2 ? "report of version 2" : "report";
    answer(2, "length of the text");
    now -= 2;
    size_t length = pair();
    const uint8_t *text = here(length);
    now -= length;
    for (size_t at = 0; at < length;) {
        const uint8_t *end = memchr(text + at, '\n', length - at);
        size_t bytes = end ? (size_t)(end - text) + 1 - at : length - at;
        line(report, text + at, bytes);
        at += bytes;
    }
    host_calls("C set-point", 17, 32);
    host_calls("C cell", 2, 17);
}

static void read_season(void)
{
    answer(2, "length");
    answer(2, "length of the season");
    now -= 2;
    skip(pair());
    host_calls("C season", 5, 1);
}

/* The edits of a load by their parts; the last that there may be as one. */
static void load_edits(void)
{
    for (size_t place = 1; now < cases[case_count].bytes; place++) {
        if (place == MOST_EDITS) {
            answer(EDIT_BYTES, "load: edit %zu", place);
            return;
        }
        answer(1, "load: point");
        answer(1, "load: direction");
        answer(8, "load: ratio");
        answer(8, "load: x");
        answer(8, "load: y");
        answer(8, "load: z");
    }
}

/* Behind the arguments stands what the call returns: a refusal's number, with which the case ends, or the length of the file behind it. */
static void read_load(void)
{
    answer(2, "length");
    skip(18);
    const uint8_t *returned = here(8);
    now -= 8;
    if (now + 8 == cases[case_count].bytes) {
        answer(8, "C load %d: number", returned[7]);
        return;
    }
    answer(8, "C load: length of the file");
    answer(4, "load: count");
    answer(1, "load: version");
    answer(8, "load: border");
    for (size_t corner = 0; corner < CORNERS; corner++)
        answer(24, "load: corner %zu", corner);
    load_edits();
}

/* ---- what must occur */
static const char *const basis_parts[] = {
    "result", NULL
};
static const char *const store_parts[] = {
    "point made 0: number", "point made 10: number", "connect 0: number", "connect 5: number", "connect 7: number",
    "remove_connection 0: number", "remove_connection 3: number", "remove_edge_condition 0: number", "remove_edge_condition 5: number",
    "set_edge_con_weight 0: number", "set_edge_con_weight 3: number", "set_edge_con_weight 5: number", "set_knot_coordinates 0: number",
    "set_knot_coordinates 5: number", "walk 0: number", "walk 3: number", "walk 4: number", "walk 9: number", "walk 11: number",
    "walk: point", "walk: moves", "walk: sum", "points made", "side 0: kind 0", "side 1: kind 1", "side 2: kind 2",
    "side 3: point linked", "side 0: interval", "side 1: weight", "coordinate s", "coordinate t", "length", "number of calls", NULL
};
static const char *const map_parts[] = {
    "insertion 0: number", "insertion 0: opened", "insertion 0: inferred", "insertion 1: number", "insertion 2: number",
    "insertion 3: number", "insertion 4: number", "insertion 6: number", "insertion 8: number", "insertion 8: opened",
    "insertion 8: inferred", "insertion 10: number", "withdrawing insertion 0: number", "withdrawing insertion 0: opened",
    "withdrawing insertion 0: inferred", "withdrawing insertion 1: number", "withdrawing insertion 2: number",
    "withdrawing insertion 3: number", "withdrawing insertion 4: number", "withdrawing insertion 6: number",
    "withdrawing insertion 8: number", "withdrawing insertion 8: opened", "withdrawing insertion 8: inferred",
    "withdrawing insertion 10: number", "ray 0: number", "ray 3: number", "ray 4: number", "ray 9: number", "ray 11: number",
    "ray: entry 1", "ray: entry 5", "knots 0: number", "knots 3: number", "knots 4: number", "knots 9: number", "knots 11: number",
    "knots: s1", "knots: s5", "knots: t1", "knots: t5", "evaluation 0: number", "evaluation 3: number", "evaluation 4: number",
    "evaluation 9: number", "evaluation: x", "evaluation: y", "evaluation: z", "evaluation: weight", "all knots 0: number",
    "all knots 3: number", "all knots 4: number", "all knots 9: number", "openings: count", "openings: point", "openings: direction 0",
    "openings: direction 1", "openings: direction 2", "openings: direction 3", TWO_OPENINGS, "lent value 0: number", "lent value 4: number",
    "lent value: x", "lent value: weight", "set-point 0: number", "set-point 3: number", "set-point 4: number", "set-point 9: number",
    "set-point 15: number", "set-point 20: number", "set-point: x", "set-point: weight", "lent set-point 0: number",
    "lent set-point 3: number", "lent set-point 4: number", "lent set-point 9: number", "lent set-point 15: number",
    "lent set-point 20: number", "lent set-point: x", "lent set-point: weight", "cell 0: number", "cell 3: number", "cell 4: number",
    "cell 9: number", "cell: first word", "cell: second word", "cell: count", "counts: points made", "counts: points listed",
    "counts: links", "counts: borders", "set_pull 0: number", "set_pull 11: number", "set_pull 17: number", "point made 0: number",
    "connect 0: number", "remove_connection 0: number", "remove_edge_condition 0: number", "set_edge_con_weight 0: number",
    "set_knot_coordinates 0: number", "walk 0: number", "walk: point", "walk: moves", "walk: sum", "points made", "side 0: kind 0",
    "side 1: kind 1", "side 2: kind 2", "side 3: point linked", "side 0: interval", "side 1: weight", "coordinate s", "coordinate t",
    "listed: 0", "listed: 1", "kept: 0", "kept: 1", "position: x", "position: y", "position: z", "pull", "row kept: s1",
    "row kept: s5", "row kept: t1", "row kept: t5", "length", "number of calls", NULL
};
static const char *const file_parts[] = {
    "report: edit refused 1", "report: edit refused 2", "report: edit refused 3", "report: edit refused 4", "report: edit refused 8",
    "report: edit refused 10", "report: made", "report: open", "report: mid", "report: mid refused 3", "report: mid refused 4",
    "report: mid refused 9", "report: mid refused 15", "report: file refused 12", "report: file refused 13", "report: file refused 14",
    "report of version 2: edit refused 1", "report of version 2: edit refused 2", "report of version 2: edit refused 3",
    "report of version 2: edit refused 4", "report of version 2: edit refused 8", "report of version 2: edit refused 10",
    "report of version 2: made", "report of version 2: open", "report of version 2: mid", "report of version 2: mid refused 3",
    "report of version 2: mid refused 4", "report of version 2: mid refused 9", "report of version 2: mid refused 15",
    "report of version 2: file refused 12", "report of version 2: file refused 14",
    "C set-point 0: number", "C set-point 0: buffer", "C set-point 3: number", "C set-point 4: number", "C set-point 9: number", "C set-point 12: number",
    "C set-point 13: number", "C set-point 14: number", "C set-point 15: number", "C set-point 15: buffer", "C set-point 16: number", "C set-point 16: buffer",
    "C set-point 20: number", "C set-point 20: buffer", "C set-point: how many", "C cell 0: number", "C cell 0: buffer",
    "C cell 3: number", "C cell 4: number", "C cell 9: number", "C cell 9: buffer", "C cell 12: number", "C cell 13: number",
    "C cell 14: number", "C cell 16: number", "C cell 16: buffer", "C cell: how many", "length", "length of the file", "length of the text", NULL
};

static const char *const season_parts[] = {
    "C season 0: number", "C season 0: buffer", "C season 12: number", "C season 12: buffer", "C season 13: number", "C season 13: buffer",
    "C season 16: number", "C season 16: buffer", "C season 18: number", "C season 18: buffer", "C season 19: number", "C season 19: buffer",
    "C season: how many", "length", "length of the season", NULL
};

static const char *const load_parts[] = {
    "C load 16: number", "C load 21: number", "C load 22: number", "C load: length of the file", "load: count", "load: version",
    "load: border", "load: corner 0", "load: corner 1", "load: corner 2", "load: corner 3", "load: point", "load: direction",
    "load: ratio", "load: x", "load: y", "load: z", "load: edit 1000", "length", NULL
};

static const struct format {
    const char *word;
    void (*read)(void);
    const char *const *wanted;
    /* Whether a case begins with two bytes that tell its length. */
    int counted;
} formats[] = {
    {"basis", read_basis, basis_parts, 0},
    {"store", read_store, store_parts, 1},
    {"map", read_map, map_parts, 1},
    {"file", read_file, file_parts, 1},
    {"season", read_season, season_parts, 1},
    {"load", read_load, load_parts, 1},
};

static void read_cases(const struct format *format)
{
    for (size_t at = 0; at < stored_bytes; case_count++) {
        if (case_count + 1 >= MOST_CASES || at + 2 > stored_bytes)
            fail("the cases end within one, or are too many");
        cases[case_count].at = at;
        cases[case_count].bytes = format->counted ? 2 + (size_t)stored[at] * 256 + stored[at + 1] : BASIS_BYTES;
        if (at + cases[case_count].bytes > stored_bytes)
            fail("case %zu is not whole", case_count);
        now = 0;
        format->read();
        if (now != cases[case_count].bytes)
            fail("case %zu has bytes behind its end", case_count);
        at += cases[case_count].bytes;
    }
    for (const char *const *wanted = format->wanted; *wanted; wanted++) {
        size_t found = 0;
        while (found < part_count && strcmp(parts[found].name, *wanted) != 0)
            found++;
        if (found == part_count)
            fail("no case has the answer '%s'", *wanted);
    }
}

/* ---- the program
 * What it says of some bytes. */
static void judge(const uint8_t *bytes, size_t count, char *said, size_t room)
{
    char path[4096];
    snprintf(path, sizeof path, "%s/cases", folder);
    FILE *file = fopen(path, "wb");
    if (!file || fwrite(bytes, 1, count, file) != count || fclose(file) != 0)
        fail("%s can't be written", path);
    int ends[2];
    if (pipe(ends) != 0)
        fail("no pipe");
    pid_t child = fork();
    if (child == 0) {
        if (chdir(folder) != 0 || dup2(ends[1], STDOUT_FILENO) < 0)
            _exit(126);
        close(ends[0]);
        close(ends[1]);
        execl(program, program, (char *)NULL);
        _exit(127);
    }
    close(ends[1]);
    size_t length = 0;
    ssize_t more;
    while (length + 1 < room && (more = read(ends[0], said + length, room - 1 - length)) > 0)
        length += (size_t)more;
    said[length] = 0;
    close(ends[0]);
    int status;
    if (waitpid(child, &status, 0) != child || !WIFEXITED(status) || WEXITSTATUS(status) != 0)
        fail("it ended with status %d on %zu bytes", status, count);
}

static void expect(const uint8_t *bytes, size_t count, size_t right, size_t wrong, const char *name, size_t number)
{
    char said[100], wanted[100];
    judge(bytes, count, said, sizeof said);
    snprintf(wanted, sizeof wanted, "right %zu wrong %zu\n", right, wrong);
    if (strcmp(said, wanted) != 0) {
        fail("'%s' of case %zu: it said '%.*s', not '%.*s'", name, number, (int)strcspn(said, "\n"), said, (int)strcspn(wanted, "\n"),
             wanted);
    }
}

/* Each byte of an answer, flipped in its lowest bit, in the case alone. */
static void flip(const struct part *part)
{
    uint8_t *alone = stored + cases[part->number].at;
    size_t bytes = cases[part->number].bytes;
    expect(alone, bytes, 1, 0, part->name, part->number);
    for (size_t at = part->at; at < part->at + part->bytes; at++) {
        alone[at] ^= 1;
        char said[100];
        judge(alone, bytes, said, sizeof said);
        alone[at] ^= 1;
        /* A length that is one more or less leaves bytes that may begin a second case: it is wrong too, or none. */
        unsigned long right, wrong;
        int whole = strcmp(part->name, "length") != 0;
        if (sscanf(said, "right %lu wrong %lu", &right, &wrong) != 2 || right != 0 || (whole ? wrong != 1 : wrong == 0)) {
            fail("'%s' of case %zu, its byte %zu flipped: it said '%.*s'", part->name, part->number, at - part->at,
                 (int)strcspn(said, "\n"), said);
        }
        changes++;
    }
}

/* The first two openings of a list, exchanged. */
static void exchange(const struct part *part)
{
    uint8_t *alone = stored + cases[part->number].at;
    uint8_t *first = alone + part->at, *second = first + OPENING_BYTES;
    uint8_t kept[2 * OPENING_BYTES];
    memcpy(kept, first, sizeof kept);
    memcpy(first, kept + OPENING_BYTES, OPENING_BYTES);
    memcpy(second, kept, OPENING_BYTES);
    expect(alone, cases[part->number].bytes, 0, 1, part->name, part->number);
    memcpy(first, kept, sizeof kept);
    changes++;
}

/* All cases, with the last byte of one answer flipped. A length is left out: with another one what follows is read as another case. */
static void flip_among_all(const struct part *part)
{
    uint8_t *place = stored + cases[part->number].at + part->at + part->bytes - 1;
    if (strcmp(part->name, "length") == 0)
        return;
    *place ^= 1;
    expect(stored, stored_bytes, case_count - 1, 1, part->name, part->number);
    *place ^= 1;
    changes++;
}

/* A case a byte longer. Behind a refused load that byte would stand in the buffer. */
static void lengthen(size_t number)
{
    size_t bytes = cases[number].bytes, count = bytes - 1;
    uint8_t *room = malloc(bytes + 1);
    if (!room)
        fail("no memory");
    memcpy(room, stored + cases[number].at, bytes);
    room[0] = (uint8_t)(count / 256);
    room[1] = (uint8_t)(count % 256);
    room[bytes] = 0;
    expect(room, bytes + 1, 0, 1, "a byte longer", number);
    changes++;
    free(room);
}

/* A case cut at every length, one byte longer, and a file that ends within a case. */
static void cut(const struct format *format, size_t number)
{
    const uint8_t *whole = stored + cases[number].at;
    size_t bytes = cases[number].bytes;
    uint8_t *room = malloc(bytes * bytes + 4);
    if (!room)
        fail("no memory");
    expect(whole, bytes - 1, 0, 1, "cut by a byte", number);
    memcpy(room, whole, bytes);
    room[bytes] = 0;
    expect(room, bytes + 1, 1, 1, "a byte behind", number);
    changes += 2;
    if (format->counted) {
        lengthen(number);
        size_t end = 0;
        for (size_t kept = 0; kept + 2 < bytes; kept++) {
            room[end] = (uint8_t)(kept / 256);
            room[end + 1] = (uint8_t)(kept % 256);
            memcpy(room + end + 2, whole + 2, kept);
            end += kept + 2;
        }
        expect(room, end, 0, bytes - 2, "cut at every length", number);
        changes += bytes - 2;
    }
    free(room);
}

/* The smallest case of 300 bytes or more, or the first. */
static size_t case_to_cut(void)
{
    size_t found = 0;
    for (size_t n = 0; n < case_count; n++)
        if (cases[n].bytes >= 300 && (cases[found].bytes < 300 || cases[n].bytes < cases[found].bytes))
            found = n;
    return found;
}

int main(int count, char **words)
{
    if (count != 5) {
        fprintf(stderr, "control PROGRAM WORD CASES FOLDER\n");
        return 2;
    }
    program = words[1];
    folder = words[4];
    const struct format *format = NULL;
    for (size_t n = 0; n < sizeof formats / sizeof *formats; n++)
        if (strcmp(formats[n].word, words[2]) == 0)
            format = &formats[n];
    FILE *file = fopen(words[3], "rb");
    if (!format || !file || fseek(file, 0, SEEK_END) != 0)
        fail("no format '%s', or %s can't be read", words[2], words[3]);
    stored_bytes = (size_t)ftell(file);
    rewind(file);
    stored = malloc(stored_bytes + 1);
    if (!stored || fread(stored, 1, stored_bytes, file) != stored_bytes)
        fail("%s can't be read", words[3]);
    fclose(file);
    read_cases(format);
    expect(stored, stored_bytes, case_count, 0, "all cases", 0);
    for (size_t n = 0; n < part_count; n++) {
        flip(&parts[n]);
        if (strcmp(parts[n].name, TWO_OPENINGS) == 0)
            exchange(&parts[n]);
        if (format->read == read_load && parts[n].at + parts[n].bytes == cases[parts[n].number].bytes)
            lengthen(parts[n].number);
        if (n % 10 == 1 || n + 1 == part_count)
            flip_among_all(&parts[n]);
    }
    cut(format, case_to_cut());
    printf("%zu %zu\n", changes, part_count);
    return 0;
}
