/* Loaded before a program, this runs its `main` many times in one process: each time in a child of its own, as the
   program would run alone. Standard input is a batch of inputs, each after a line with its length; each child reads one
   of them. With REFUSE in the environment an input is given again and again: the first request for memory is refused,
   then the second, and so on, until no request of a child was. After what a child printed comes a line `= STATUS`,
   which ends in ` refused` if a request was. A child that a signal ended has the status 128 and the signal.

   cc -shared -fPIC -O2 -o forks.so forks.c */

#define _GNU_SOURCE
#include <dlfcn.h>
#include <stdio.h>
#include <stdlib.h>
#include <string.h>
#include <sys/mman.h>
#include <sys/wait.h>
#include <unistd.h>

enum { MOST_INPUT = 1 << 28 };

static long requests;        /* since this child began */
static long refused_request; /* 0 for none */
static char *was_refused;    /* shared with the parent */

static int refuse(void)
{
    if (++requests != refused_request)
        return 0;
    *was_refused = 1;
    return 1;
}

void *malloc(size_t size)
{
    static void *(*next)(size_t);
    if (!next)
        next = (void *(*)(size_t))dlsym(RTLD_NEXT, "malloc");
    return refuse() ? NULL : next(size);
}

void *realloc(void *old, size_t size)
{
    static void *(*next)(void *, size_t);
    if (!next)
        next = (void *(*)(void *, size_t))dlsym(RTLD_NEXT, "realloc");
    return refuse() ? NULL : next(old, size);
}

/* In the child: goes on to `main`, with this text as its input. */
static void begin_child(const char *text, size_t length, long refused)
{
    int input = memfd_create("input", 0);
    if (input < 0 || write(input, text, length) != (ssize_t)length)
        _exit(99);
    lseek(input, 0, SEEK_SET);
    dup2(input, 0);
    close(input);
    requests = 0;
    refused_request = refused;
}

/* Runs `main` over a text. The result is 1 in the child, and in the parent whether to go on with the next request. */
static int run(const char *text, size_t length, long refused, int *goes_on)
{
    char line[64];
    int status, size;
    pid_t child;
    *was_refused = 0;
    child = fork();
    if (child == 0) {
        begin_child(text, length, refused);
        return 1;
    }
    if (child < 0 || waitpid(child, &status, 0) != child)
        _exit(98);
    status = WIFEXITED(status) ? WEXITSTATUS(status) : 128 + WTERMSIG(status);
    size = snprintf(line, sizeof line, "= %d%s\n", status, *was_refused ? " refused" : "");
    if (write(1, line, size) != size)
        _exit(97);
    *goes_on = refused && *was_refused;
    return 0;
}

static size_t read_batch(char *batch)
{
    size_t length = 0;
    ssize_t count;
    while ((count = read(0, batch + length, MOST_INPUT - length)) > 0)
        length += count;
    return length;
}

static char *map(size_t length, int how)
{
    char *place = mmap(NULL, length, PROT_READ | PROT_WRITE, how | MAP_ANONYMOUS, -1, 0);
    if (place == MAP_FAILED)
        _exit(96);
    return place;
}

/* Runs `main` over a text, or, where requests are refused, as often as some request was. The result is as that of
   `run`. */
static int run_each(const char *text, size_t length, long refused)
{
    int goes_on;
    do {
        if (run(text, length, refused++, &goes_on))
            return 1;
    } while (goes_on);
    return 0;
}

__attribute__((constructor)) static void run_all(void)
{
    char *batch = map(MOST_INPUT, MAP_PRIVATE | MAP_NORESERVE);
    char *end = batch + read_batch(batch);
    long refused = getenv("REFUSE") ? 1 : 0;
    was_refused = map(1, MAP_SHARED);
    while (batch < end) {
        size_t length = strtoul(batch, &batch, 10);
        batch++;
        if (run_each(batch, length, refused))
            return;
        batch += length;
    }
    _exit(0);
}
