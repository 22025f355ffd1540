/*
 * load_test PROGRAM [CASES]: tries the C call that makes a load, and PROGRAM, which is `gateload`, and says in one line how it went.
 *
 * The seeds are 0; powers of two, and numbers whose low bits are all ones; numbers drawn, some with 8, 16 or 32 low bits 0. The counts of edits are 0 to 40,
 * 1,000 and those beside it, and such as are one of these in 16 or in 32 bits, or whose file would have few bytes, counted in 64 bits. Each of these loads is
 * asked for in a buffer that just holds its file and in those one byte shorter and longer; some in every buffer up to and past that, and in long ones. Seed 0,
 * too many edits and a short buffer stand together in every mixture. The edits of seed 1 are given as numbers, and the loads of CASES, which is
 * crates/load_replay/data/cases (oracle/README.md has its format), as bytes.
 * What is due is read here from Ticket 9 of document 02. The whole memory in which the buffer lies is compared with it; how a call is made is said in
 * fenced_calls.h. Files that the call wrote are given to gatemap_set_point at places on the map: it may not refuse the file, and a position lies from 0 to 1.
 * The program is given inputs of several lengths, written at once or byte by byte, and must write the file that is due, or nothing (programs.h). It must
 * also end, and say nothing, where its input or its output is closed, cannot be read or takes nothing.
 * The line also says how much stack the call touched, which is held to what the header says.
 */
#define _GNU_SOURCE
#include <time.h>
#include <xmmintrin.h>

#include "programs.h"

enum {
    THE_VERSION = 1,
    FLOAT_BYTES = 8,
    AXES = 3,
    EDIT_BYTES = 34,
    SEED_BYTES = 8,
    EDITS_BYTES = 2,
    INPUT_BYTES = SEED_BYTES + EDITS_BYTES,
    LONG_INPUT_BYTES = 100000,
    MOST_LOAD_ROOM = 1 << 17
};

static struct fenced load_room;
static unsigned long positions, stored_loads;

/* ---- what is due, by the paper */

/* What is returned, and the file that is written, which has no bytes where the load is refused. */
struct load {
    uint64_t returned;
    size_t length;
    uint8_t file[GATEMAP_MOST_FILE_BYTES];
};

static uint64_t next_draw(uint64_t *draw)
{
    *draw ^= *draw << 13;
    *draw ^= *draw >> 7;
    *draw ^= *draw << 17;
    return *draw;
}

static uint64_t bits_of(double number)
{
    uint64_t bits;
    memcpy(&bits, &number, sizeof bits);
    return bits;
}

static uint8_t *put_float(uint8_t *at, double number)
{
    return put_number(at, bits_of(number), FLOAT_BYTES);
}

static uint8_t *put_edit(uint8_t *at, uint64_t *draw)
{
    at = put_number(at, next_draw(draw) % 128, 1);
    at = put_number(at, next_draw(draw) % 4, 1);
    at = put_float(at, (double)(next_draw(draw) % 1025) / 1024.0);
    for (int axis = 0; axis < AXES; axis++)
        at = put_float(at, (double)(next_draw(draw) % 1025) / 1024.0);
    return at;
}

static size_t put_load(uint8_t *file, uint64_t seed, uint64_t edits)
{
    static const double corners[][AXES] = {{0, 0, 0}, {1, 0, 0}, {1, 1, 1}, {0, 1, 1}};
    uint8_t *behind_count = file + COUNT_BYTES;
    uint8_t *at = put_float(put_number(behind_count, THE_VERSION, 1), 1.0);
    for (int corner = 0; corner < 4; corner++)
        for (int axis = 0; axis < AXES; axis++)
            at = put_float(at, corners[corner][axis]);
    for (uint64_t draw = seed; edits > 0; edits--)
        at = put_edit(at, &draw);
    put_number(file, (uint64_t)(at - behind_count), COUNT_BYTES);
    return (size_t)(at - file);
}

static uint64_t refusal_of(uint64_t seed, uint64_t edits)
{
    if (seed == 0)
        return GATEMAP_SEED;
    return edits > GATEMAP_MOST_EDITS ? GATEMAP_TOO_MANY : GATEMAP_DONE;
}

static const struct load *due_for(uint64_t seed, uint64_t edits, size_t room)
{
    static struct load due;
    due.length = 0;
    due.returned = refusal_of(seed, edits);
    if (due.returned != GATEMAP_DONE)
        return &due;
    size_t length = put_load(due.file, seed, edits);
    due.length = room < length ? 0 : length;
    due.returned = room < length ? GATEMAP_SHORT : length;
    return &due;
}

/* ---- asking */

/* One call, with its buffer somewhere in the memory for it: what it returns and all of that memory must be as is due. */
static void ask_at(uint8_t *out, uint64_t seed, uint64_t edits, size_t room, const struct load *due)
{
    memset(load_room.start, FILLER, (size_t)(load_room.end - load_room.start));
    uint64_t returned = call_from_height(NULL, 0, (struct question){.of = LOAD, .seed = seed, .edits = edits}, out, room);
    calls++;
    int as_due = all_filler(load_room.start, out) && memcmp(out, due->file, due->length) == 0 && all_filler(out + due->length, load_room.end);
    check(returned == due->returned && as_due, "seed %llu, %llu edits, room %zu: %llu where %llu is due, and the memory is %s",
          (unsigned long long)seed, (unsigned long long)edits, room, (unsigned long long)returned, (unsigned long long)due->returned,
          as_due ? "right" : "wrong");
}

/* A load in a buffer right after memory that cannot be touched, and right before: what the second call wrote stands there until the next. */
static const uint8_t *ask(uint64_t seed, uint64_t edits, size_t room)
{
    const struct load *due = due_for(seed, edits, room);
    ask_at(load_room.start, seed, edits, room, due);
    ask_at(load_room.end - room, seed, edits, room, due);
    return load_room.end - room;
}

/* How long the file is of edits that are not too many. */
static size_t file_bytes(uint64_t edits)
{
    return GATEMAP_LEAST_FILE_BYTES + EDIT_BYTES * (size_t)edits;
}

/* ---- seeds, counts and buffers */

enum { BITS = 64, SEEDS_DRAWN = 128, SEEDS = 2 * BITS + SEEDS_DRAWN };

/* Seeds other than 0. Those drawn are multiples of the golden ratio, without the bits before its point. */
static uint64_t seed_of(int k)
{
    static const int low_bits[] = {0, 8, 16, 32};
    if (k < BITS)
        return (uint64_t)1 << k;
    if (k < 2 * BITS)
        return UINT64_MAX >> (k - BITS);
    return (uint64_t)k * 0x9e3779b97f4a7c15 >> low_bits[k % 4] << low_bits[k % 4];
}

/* The file of 2^63 edits would have 109 bytes, counted in 64 bits. */
static const uint64_t EDGE_COUNTS[] = {GATEMAP_MOST_EDITS - 1,
                                       GATEMAP_MOST_EDITS,
                                       GATEMAP_MOST_EDITS + 1,
                                       UINT16_MAX,
                                       (uint64_t)1 << 16,
                                       ((uint64_t)1 << 16) + 1,
                                       ((uint64_t)1 << 16) + GATEMAP_MOST_EDITS,
                                       (uint64_t)1 << 32,
                                       ((uint64_t)1 << 32) + 5,
                                       (uint64_t)1 << 63,
                                       UINT64_MAX};

enum { FEW = 40, COUNTS = FEW + 1 + sizeof EDGE_COUNTS / sizeof EDGE_COUNTS[0] };

static uint64_t count_of(int k)
{
    return k <= FEW ? (uint64_t)k : EDGE_COUNTS[k - FEW - 1];
}

/* For any load: none; the numbers of the refusals; for no edits, 1 and 5, and beside them; for most edits, beside them, and for one more; long ones. */
static const size_t ROOMS[] = {0, 16, 21, 22, 108, 109, 110, 142, 143, 144, 278, 279, 280, 34108, 34109, 34110, 34143, 65535, 65536, 65645, MOST_LOAD_ROOM};

enum { ROOMS_TRIED = sizeof ROOMS / sizeof ROOMS[0] };

/* ---- the loads, one after the other */

/* In a buffer that just holds the file, and in those beside it. Of too many edits no file is due: in such as hold the longest one. */
static void just_held(uint64_t seed, uint64_t edits)
{
    size_t length = file_bytes(edits <= GATEMAP_MOST_EDITS ? edits : GATEMAP_MOST_EDITS);
    for (size_t room = length - 1; room <= length + 1; room++)
        ask(seed, edits, room);
}

static void every_seed_and_count(void)
{
    for (int seed = 0; seed < SEEDS; seed++)
        for (int count = 0; count < COUNTS; count++)
            just_held(seed_of(seed), count_of(count));
}

/* Seed 0, and such as are 0 in their low bits, with every count and buffer. */
static void every_mixture_of_refusals(void)
{
    static const uint64_t seeds[] = {0, 1, 0x100, 0x10000, (uint64_t)1 << 32, (uint64_t)1 << 63, UINT64_MAX};
    for (size_t seed = 0; seed < sizeof seeds / sizeof seeds[0]; seed++)
        for (int count = 0; count < COUNTS; count++)
            for (int room = 0; room < ROOMS_TRIED; room++)
                ask(seeds[seed], count_of(count), ROOMS[room]);
}

static void every_room(void)
{
    enum { EDITS = 4, PAST = 50 };
    for (uint64_t edits = 0; edits <= EDITS; edits++)
        for (size_t room = 0; room <= file_bytes(EDITS) + PAST; room++) {
            ask(20030727, edits, room);
            ask(0, edits, room);
        }
}

/* The quotients are exact: they do not depend on how the processor rounds, nor on whether it keeps subnormal numbers. */
static void every_rounding(void)
{
    static const unsigned modes[] = {_MM_ROUND_NEAREST, _MM_ROUND_DOWN, _MM_ROUND_UP, _MM_ROUND_TOWARD_ZERO};
    unsigned kept = _mm_getcsr();
    for (size_t mode = 0; mode < sizeof modes / sizeof modes[0]; mode++) {
        _mm_setcsr((kept & ~(unsigned)_MM_ROUND_MASK) | modes[mode] | _MM_FLUSH_ZERO_ON);
        for (int seed = 0; seed < SEEDS; seed++)
            ask(seed_of(seed), FEW, file_bytes(FEW));
    }
    _mm_setcsr(kept);
}

/*
 * The first two edits of seed 1, each as its point, its direction, and its ratio and position in parts of 1024. The first is of the draws 1082269761,
 * 1152992998833853505, 11177516664432764457, 17678023832001937445, 9659130143999365733 and 17775799001133815809.
 */
static void edits_of_seed_1(void)
{
    enum { EDITS = 2, DRAWS = 6 };
    static const int due[EDITS][DRAWS] = {{65, 1, 657, 445, 233, 59}, {113, 1, 614, 123, 254, 453}};
    uint8_t bytes[EDITS * EDIT_BYTES], *at = bytes;
    for (int edit = 0; edit < EDITS; edit++) {
        at = put_number(put_number(at, (uint64_t)due[edit][0], 1), (uint64_t)due[edit][1], 1);
        for (int part = 2; part < DRAWS; part++)
            at = put_float(at, due[edit][part] / 1024.0);
    }
    const uint8_t *file = ask(1, EDITS, file_bytes(EDITS));
    check(memcmp(file + GATEMAP_LEAST_FILE_BYTES, bytes, sizeof bytes) == 0, "the edits of seed 1");
}

/* ---- stored loads */

enum { STORED_HEAD_BYTES = 26 };

/* Seed, edits, room, what is returned, and the file where one is written. */
static void stored_load(const uint8_t *bytes, size_t size)
{
    if (size < STORED_HEAD_BYTES) {
        check(0, "stored load %lu has %zu bytes", stored_loads, size);
        return;
    }
    uint64_t seed = big_endian(bytes, 8), edits = big_endian(bytes + 8, 8);
    size_t room = pair_at(bytes + 16), length = size - STORED_HEAD_BYTES;
    const struct load *due = due_for(seed, edits, room);
    check(big_endian(bytes + 18, 8) == due->returned && length == due->length && memcmp(bytes + STORED_HEAD_BYTES, due->file, length) == 0,
          "stored load %lu is not what is due: seed %llu, %llu edits, room %zu", stored_loads, (unsigned long long)seed,
          (unsigned long long)edits, room);
    ask(seed, edits, room);
}

static void stored_cases(const char *path)
{
    static uint8_t bytes[MOST_CASE_BYTES];
    size_t size;
    FILE *cases = fopen(path, "rb");
    stop_unless(cases != NULL, path);
    for (; next_case(cases, bytes, &size); stored_loads++)
        stored_load(bytes, size);
    fclose(cases);
}

static void *every_load(void *cases)
{
    edits_of_seed_1();
    every_seed_and_count();
    every_mixture_of_refusals();
    every_room();
    every_rounding();
    if (cases != NULL)
        stored_cases(cases);
    return NULL;
}

/* ---- the maps of the files */

static int from_0_to_1(const uint8_t *at)
{
    double number;
    uint64_t bits = big_endian(at, FLOAT_BYTES);
    memcpy(&number, &bits, sizeof number);
    return 0 <= number && number <= 1;
}

/* Whether a set-point may be answered so of a file that is not refused, on the map. */
static int of_map(uint64_t number)
{
    return number == GATEMAP_DONE || number == GATEMAP_OPEN_SIDE || number == GATEMAP_BORDER || number == GATEMAP_RING || number == GATEMAP_NO_WEIGHT;
}

static void set_point_of(const uint8_t *file, size_t length, double s, double t)
{
    struct question place = {.of = SET_POINT, .s = bits_of(s), .t = bits_of(t)};
    struct answer answer = call_twice(file, length, place, GATEMAP_VALUE_BYTES);
    check(of_map(answer.number), "a load's file of %zu bytes is answered %d at (%g, %g)", length, (int)answer.number, s, t);
    if (answer.number != GATEMAP_DONE)
        return;
    positions++;
    for (int axis = 0; axis < AXES; axis++)
        check(from_0_to_1(answer.bytes + FLOAT_BYTES * axis), "a position of a load's file of %zu bytes at (%g, %g)", length, s, t);
}

/* Files of some seeds, written by the call, at places on the map and at its edges. Some places must have a position, whatever the count. */
static void *every_map(void *unused)
{
    static const uint64_t counts[] = {0, 1, 2, 5, 13, 40, 124, 250, 500, 750, GATEMAP_MOST_EDITS};
    static const double places[] = {0, 0x1p-3, 0.5, 1};
    enum { PLACES = sizeof places / sizeof places[0] };
    for (size_t count = 0; count < sizeof counts / sizeof counts[0]; count++) {
        unsigned long before = positions;
        size_t length = file_bytes(counts[count]);
        for (int seed = 0; seed < SEEDS; seed += 5) {
            const uint8_t *file = ask(seed_of(seed), counts[count], length);
            for (int place = 0; place < PLACES * PLACES; place++)
                set_point_of(file, length, places[place / PLACES], places[place % PLACES]);
        }
        check(positions > before, "no load of %d edits has a position", (int)counts[count]);
    }
    return unused;
}

/* ---- the program */

/* Bytes that are written to the end of a pipe, so many at a time, with pauses between. */
struct writing {
    const uint8_t *bytes;
    size_t length, part;
    int to;
};

/* Until all is written, or nobody is there to read it, which ends neither the test nor a run. */
static void *write_parts(void *given)
{
    static const struct timespec pause = {.tv_nsec = 5000000};
    struct writing left = *(struct writing *)given;
    sigset_t broken_pipe;
    sigemptyset(&broken_pipe);
    sigaddset(&broken_pipe, SIGPIPE);
    pthread_sigmask(SIG_BLOCK, &broken_pipe, NULL);
    while (left.length > 0) {
        ssize_t written = write(left.to, left.bytes, left.length < left.part ? left.length : left.part);
        if (written <= 0)
            break;
        left.bytes += written;
        left.length -= (size_t)written;
        if (left.length > 0)
            nanosleep(&pause, NULL);
    }
    close(left.to);
    return NULL;
}

/* How many bytes the program writes of an input. */
static size_t written_of(const uint8_t *input, size_t length, size_t part, int out, uint8_t *bytes)
{
    int ends[2];
    pthread_t writer;
    make_pipe(ends);
    struct writing writing = {input, length, part, ends[1]};
    stop_unless(pthread_create(&writer, NULL, write_parts, &writing) == 0, "a thread");
    size_t got = run(ends[0], out, bytes, MOST_CASE_BYTES);
    close(ends[0]);
    stop_unless(pthread_join(writer, NULL) == 0, "a thread");
    return got;
}

static uint8_t input[LONG_INPUT_BYTES];

/* The input of a seed and a count, cut to so many bytes or with others behind it, written so many at a time. */
static void try_input(uint64_t seed, uint64_t edits, size_t length, size_t part)
{
    static const struct load nothing;
    static uint8_t bytes[MOST_CASE_BYTES];
    memset(input, FILLER, sizeof input);
    put_number(put_number(input, seed, SEED_BYTES), edits, EDITS_BYTES);
    const struct load *due = length == INPUT_BYTES ? due_for(seed, edits, MOST_LOAD_ROOM) : &nothing;
    size_t got = written_of(input, length, part, PIPED, bytes);
    check(got == due->length && memcmp(bytes, due->file, got) == 0, "the program writes %zu bytes where %zu are due: seed %llu, %llu edits, input of %zu",
          got, due->length, (unsigned long long)seed, (unsigned long long)edits, length);
}

static void inputs_at_once(void)
{
    static const uint64_t counts[] = {0, 1, 255, 256, 257, 999, 1000, 1001, 1256, 32768, UINT16_MAX};
    for (int seed = 0; seed < SEEDS; seed++)
        try_input(seed_of(seed), (uint64_t)seed % FEW, INPUT_BYTES, INPUT_BYTES);
    for (size_t count = 0; count < sizeof counts / sizeof counts[0]; count++) {
        try_input(0, counts[count], INPUT_BYTES, INPUT_BYTES);
        for (int seed = 0; seed < SEEDS; seed += 20)
            try_input(seed_of(seed), counts[count], INPUT_BYTES, INPUT_BYTES);
    }
}

/* An eleventh byte of 4, which is a wrong length too. */
static void four_behind(uint64_t seed)
{
    static uint8_t bytes[MOST_CASE_BYTES];
    *put_number(put_number(input, seed, SEED_BYTES), 3, EDITS_BYTES) = 4;
    check(written_of(input, INPUT_BYTES + 1, INPUT_BYTES + 1, PIPED, bytes) == 0, "the program writes of ten bytes and a 4");
}

/* Every length up to 12, and longer ones. The seeds have no byte that is 0, and but one that is not. */
static void every_length(void)
{
    static const size_t longer[] = {16, 2 * INPUT_BYTES, 4096, 65536, LONG_INPUT_BYTES};
    static const uint64_t seeds[] = {0x0123456789abcdef, 1};
    for (size_t seed = 0; seed < sizeof seeds / sizeof seeds[0]; seed++) {
        for (size_t length = 0; length <= INPUT_BYTES + 2; length++)
            try_input(seeds[seed], 3, length, INPUT_BYTES + 2);
        for (size_t i = 0; i < sizeof longer / sizeof longer[0]; i++)
            try_input(seeds[seed], 3, longer[i], longer[i]);
        four_behind(seeds[seed]);
    }
}

/* Byte by byte, in parts of 5, and without the last, which comes later. */
static void slow_inputs(void)
{
    for (size_t length = INPUT_BYTES - 1; length <= INPUT_BYTES + 1; length++)
        for (size_t part = 1; part < INPUT_BYTES; part += 4)
            for (uint64_t edits = 1; edits <= GATEMAP_MOST_EDITS; edits += 333)
                try_input(0x0123456789abcdef, edits, length, part);
}

/* Without an input that can be read there are no ten bytes. Without an output that takes any, there is nothing to see but that the program ends. */
static void ends_that_fail(void)
{
    static uint8_t bytes[MOST_CASE_BYTES];
    int folder = open("/", O_RDONLY | O_CLOEXEC), full = open("/dev/full", O_WRONLY | O_CLOEXEC);
    stop_unless(folder >= 0, "/");
    stop_unless(full >= 0, "/dev/full");
    put_number(put_number(input, 1, SEED_BYTES), GATEMAP_MOST_EDITS, EDITS_BYTES);
    check(run(CLOSED, PIPED, bytes, sizeof bytes) == 0, "the program writes of a closed input");
    check(run(folder, PIPED, bytes, sizeof bytes) == 0, "the program writes of a folder");
    check(written_of(input, INPUT_BYTES, INPUT_BYTES, CLOSED, bytes) == 0, "the program says something where its output is closed");
    check(written_of(input, INPUT_BYTES, INPUT_BYTES, full, bytes) == 0, "the program says something where its output is full");
    close(folder);
    close(full);
}

static void every_run(void)
{
    inputs_at_once();
    every_length();
    slow_inputs();
    ends_that_fail();
}

int main(int argc, char **argv)
{
    if (argc < 2 || argc > 3) {
        fputs("usage: load_test PROGRAM [CASES]\n", stderr);
        return 2;
    }
    program = argv[1];
    make_rooms();
    load_room = fence(MOST_LOAD_ROOM);
    size_t stack = stack_touched(every_load, argv[2]);
    stack_touched(every_map, NULL);
    every_run();
    printf("%lu calls on loads, %lu positions of their maps, %lu runs of the program, %lu stored loads, %zu bytes of stack for a load: %lu wrong\n", calls,
           positions, runs, stored_loads, stack, wrong);
    return wrong != 0 || stack > GATEMAP_STACK_BYTES || (argc == 3 && stored_loads == 0);
}
