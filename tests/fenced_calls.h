/*
 * The C calls tried: what host_test.c, season_test.c and load_test.c have in common.
 *
 * Every call is made twice, with file and buffer right before memory that cannot be touched and right after such memory, so that one byte read or written
 * too far ends the test; what of the buffer's page is not to be written is looked at after each call. Calls are made from one height of a stack that is
 * filled beforehand, so that it is seen how much of it they touch.
 */
#ifndef FENCED_CALLS_H
#define FENCED_CALLS_H

#include <pthread.h>
#include <stdarg.h>
#include <stdio.h>
#include <stdlib.h>
#include <string.h>
#include <sys/mman.h>
#include <unistd.h>

#include "gatemap_host.h"

enum {
    /* Map files and season files begin alike, with the count of what follows and the version. */
    COUNT_BYTES = 4,
    VERSION_AT = 4,
    MOST_CASE_BYTES = 65536,
    MOST_ROOM = 80,
    STACK_BYTES = 16 << 20,
    FRAMES_BYTES = 1 << 18,
    FILLER = 0xa5
};

static unsigned long calls, wrong;

static void check(int right, const char *format, ...)
{
    if (right)
        return;
    if (wrong++ < 10) {
        va_list arguments;
        va_start(arguments, format);
        fputs("wrong: ", stderr);
        vfprintf(stderr, format, arguments);
        fputc('\n', stderr);
        va_end(arguments);
    }
}

static void stop_unless(int can, const char *words)
{
    if (!can) {
        perror(words);
        exit(2);
    }
}

/* ---- numbers in files */

static uint8_t *put_number(uint8_t *at, uint64_t number, int bytes)
{
    for (int i = bytes - 1; i >= 0; i--)
        *at++ = (uint8_t)(number >> 8 * i);
    return at;
}

static uint64_t big_endian(const uint8_t *at, int bytes)
{
    uint64_t number = 0;
    for (int i = 0; i < bytes; i++)
        number = number << 8 | at[i];
    return number;
}

static size_t pair_at(const uint8_t *at)
{
    return (size_t)big_endian(at, 2);
}

/* ---- memory between two pages that cannot be touched */

struct fenced {
    uint8_t *start, *end;
};

static struct fenced fence(size_t bytes)
{
    size_t page = (size_t)sysconf(_SC_PAGESIZE);
    size_t inner = (bytes + page - 1) / page * page;
    uint8_t *all = mmap(NULL, inner + 2 * page, PROT_NONE, MAP_PRIVATE | MAP_ANONYMOUS, -1, 0);
    stop_unless(all != MAP_FAILED, "mmap");
    stop_unless(mprotect(all + page, inner, PROT_READ | PROT_WRITE) == 0, "mprotect");
    return (struct fenced){all + page, all + page + inner};
}

static struct fenced file_room, out_room;

static void make_rooms(void)
{
    file_room = fence(MOST_CASE_BYTES);
    out_room = fence(MOST_ROOM);
}

/* The first byte is a filler, and each of the others is as the one before it. */
static int all_filler(const uint8_t *from, const uint8_t *to)
{
    return from == to || (*from == FILLER && memcmp(from, from + 1, (size_t)(to - from) - 1) == 0);
}

/* ---- the calls */

/*
 * What is asked: of a map its set-point at (s, t), or which points reach a cell; of a season its map at a minute; or a load of a seed, for which
 * there is no file.
 */
struct question {
    enum { SET_POINT, CELL, SEASON, LOAD } of;
    uint64_t s, t;
    uint8_t cell;
    uint32_t minute;
    uint64_t seed, edits;
};

/* What an answer takes in the buffer. That of a load takes as many bytes as its file has, and load_test.c looks at them. */
static size_t answer_bytes(struct question question)
{
    static const size_t bytes[] = {[SET_POINT] = GATEMAP_VALUE_BYTES, [CELL] = GATEMAP_CELL_BYTES, [SEASON] = GATEMAP_MAP_NUMBER_BYTES};
    return bytes[question.of];
}

/* A call's answer: its number, and what it wrote, with fillers behind. */
struct answer {
    uint64_t number;
    uint8_t bytes[GATEMAP_VALUE_BYTES];
};

/* The calls are made from one height of the stack, below all frames of the test, so that what is touched below it is a call's alone. */
static uintptr_t height;

static __attribute__((noinline)) uint64_t call_from_height(const uint8_t *file, size_t length, struct question question, uint8_t *out, size_t room)
{
    uintptr_t frame = (uintptr_t)__builtin_frame_address(0);
    stop_unless(frame > height, "a frame below the height of the calls");
    *(volatile uint8_t *)__builtin_alloca(frame - height) = FILLER;
    switch (question.of) {
    case LOAD: return gatemap_load(question.seed, question.edits, out, room);
    case SEASON: return gatemap_season(file, length, question.minute, out, room);
    case CELL: return gatemap_cell(file, length, question.cell, out, room);
    default: return gatemap_set_point(file, length, question.s, question.t, out, room);
    }
}

static struct answer call_at(const uint8_t *bytes, size_t length, struct question question, size_t room, int at_end)
{
    struct answer answer;
    uint8_t *lent = at_end ? file_room.end - length : file_room.start;
    uint8_t *out = at_end ? out_room.end - room : out_room.start;
    memcpy(lent, bytes, length);
    memset(out_room.start, FILLER, (size_t)(out_room.end - out_room.start));
    answer.number = call_from_height(lent, length, question, out, room);
    calls++;
    size_t written = answer.number == GATEMAP_DONE && room >= answer_bytes(question) ? answer_bytes(question) : 0;
    memset(answer.bytes, FILLER, sizeof answer.bytes);
    memcpy(answer.bytes, out, written);
    check(all_filler(out_room.start, out) && all_filler(out + written, out_room.end), "answer %d touched what it must not",
          (int)answer.number);
    check(memcmp(lent, bytes, length) == 0, "the file was written");
    return answer;
}

static struct answer call_twice(const uint8_t *bytes, size_t length, struct question question, size_t room)
{
    struct answer answer = call_at(bytes, length, question, room, 1);
    struct answer again = call_at(bytes, length, question, room, 0);
    check(answer.number == again.number && memcmp(answer.bytes, again.bytes, sizeof answer.bytes) == 0,
          "two calls differ: %d and %d", (int)answer.number, (int)again.number);
    return answer;
}

/* Makes calls on a stack filled beforehand, and says how much of it was touched below the height that they are made from: no call took more. */
static size_t stack_touched(void *make_calls(void *), void *given)
{
    pthread_attr_t attributes;
    pthread_t thread;
    uint8_t *stack = mmap(NULL, STACK_BYTES, PROT_READ | PROT_WRITE, MAP_PRIVATE | MAP_ANONYMOUS, -1, 0);
    stop_unless(stack != MAP_FAILED, "mmap");
    memset(stack, FILLER, STACK_BYTES);
    height = (uintptr_t)stack + STACK_BYTES - FRAMES_BYTES;
    stop_unless(pthread_attr_init(&attributes) == 0 && pthread_attr_setstack(&attributes, stack, STACK_BYTES) == 0 &&
                    pthread_create(&thread, &attributes, make_calls, given) == 0 && pthread_join(thread, NULL) == 0,
                "a thread");
    size_t untouched = 0;
    while (untouched < STACK_BYTES && stack[untouched] == FILLER)
        untouched++;
    return height - (uintptr_t)(stack + untouched);
}

/* ---- stored cases */

/* Whether there is another stored case: how long it is, and its bytes. */
static int next_case(FILE *cases, uint8_t *bytes, size_t *size)
{
    uint8_t head[2];
    if (fread(head, 1, sizeof head, cases) != sizeof head)
        return 0;
    *size = pair_at(head);
    stop_unless(fread(bytes, 1, *size, cases) == *size, "a stored case");
    return 1;
}

#endif
