/*
 * A program that reads standard input, run and looked at: what host_test.c and load_test.c have in common.
 *
 * It must end with status 0. What it writes is read from a pipe, errors included, so that whatever it says beside its answer is seen.
 */
#ifndef PROGRAMS_H
#define PROGRAMS_H

#include <errno.h>
#include <fcntl.h>
#include <poll.h>
#include <signal.h>
#include <spawn.h>
#include <sys/wait.h>

#include "fenced_calls.h"

/* An end of the program that is no file: closed, or the pipe that is read. */
enum { CLOSED = -1, PIPED = -2 };

enum { MOST_SILENT_MILLISECONDS = 30000 };

static const char *program;
static unsigned long runs;

static void make_pipe(int ends[2])
{
    stop_unless(pipe2(ends, O_CLOEXEC) == 0, "pipe");
}

static void give_end(posix_spawn_file_actions_t *ends, int file, int number)
{
    int failed = file == CLOSED ? posix_spawn_file_actions_addclose(ends, number) : posix_spawn_file_actions_adddup2(ends, file, number);
    stop_unless(failed == 0, "posix_spawn_file_actions");
}

static pid_t start(int in, int out, int error)
{
    pid_t child;
    char *words[] = {(char *)program, NULL};
    posix_spawn_file_actions_t ends;
    stop_unless(posix_spawn_file_actions_init(&ends) == 0, "posix_spawn_file_actions");
    give_end(&ends, in, STDIN_FILENO);
    give_end(&ends, out, STDOUT_FILENO);
    give_end(&ends, error, STDERR_FILENO);
    errno = posix_spawn(&child, program, &ends, NULL, words, environ);
    stop_unless(errno == 0, program);
    posix_spawn_file_actions_destroy(&ends);
    return child;
}

/* What a child writes to a pipe until it ends. One that neither writes nor ends for long is made to. */
static size_t read_until_end(pid_t child, int from, void *bytes, size_t most)
{
    struct pollfd ready = {.fd = from, .events = POLLIN};
    size_t got = 0;
    ssize_t part = 1;
    while (part > 0) {
        if (poll(&ready, 1, MOST_SILENT_MILLISECONDS) == 0) {
            check(0, "the program does not end");
            kill(child, SIGKILL);
        }
        part = read(from, (uint8_t *)bytes + got, most - got);
        got += part > 0 ? (size_t)part : 0;
    }
    return got;
}

/* Runs the program with these ends, and gives how many bytes it writes to the pipe: errors, and where its output is PIPED that too. */
static size_t run(int in, int out, void *bytes, size_t most)
{
    int ends[2], status;
    make_pipe(ends);
    pid_t child = start(in, out == PIPED ? ends[1] : out, ends[1]);
    close(ends[1]);
    size_t got = read_until_end(child, ends[0], bytes, most);
    close(ends[0]);
    stop_unless(waitpid(child, &status, 0) == child, "waitpid");
    check(WIFEXITED(status) && WEXITSTATUS(status) == 0, "the program ended with status %d", status);
    runs++;
    return got;
}

#endif
