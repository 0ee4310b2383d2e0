// Loaded before the C library: makes allocations of a program fail. Environment:
//
// FAIL_ALLOCATION=N      the N-th allocation fails, counted from 1
// COUNT_ALLOCATIONS=1    the number of all allocations is written to standard error at the end
// FORK_ALLOCATIONS=FILE  at each allocation the program forks. The allocation fails in the child, which goes on to its end
//                        within ten seconds; then the parent goes on, in which it succeeds. FILE gets each child's number,
//                        its wait status, the length of what it wrote to standard output, and that output (at most eight
//                        megabytes); -1 in place of the length where status and output are those of the child before.
// FORK_FIRST=N, FORK_EVERY=K    with FORK_ALLOCATIONS: only at the first N allocations, and at each K-th after them
#define _GNU_SOURCE
#include <dlfcn.h>
#include <errno.h>
#include <fcntl.h>
#include <stdio.h>
#include <stdlib.h>
#include <string.h>
#include <sys/wait.h>
#include <unistd.h>

static void *(*next_malloc)(size_t);
static void *(*next_calloc)(size_t, size_t);
static void *(*next_realloc)(void *, size_t);
static void *(*next_aligned_alloc)(size_t, size_t);
static int (*next_posix_memalign)(void **, size_t, size_t);
static long failing = -1;
static long count = 0;
static int results = -1;
static long first = -1;
static long every = 1;

// What a child wrote, and how it ended.
struct outcome {
    int status;
    ssize_t length;
    char output[1 << 26];
};
static struct outcome outcomes[2] = { { .length = -1 }, { .length = -1 } };
static struct outcome *now = &outcomes[0], *before = &outcomes[1];

static long number(const char *name, long otherwise)
{
    const char *text = getenv(name);
    return text ? atol(text) : otherwise;
}

static void find_next(void)
{
    if (next_malloc)
        return;
    next_malloc = dlsym(RTLD_NEXT, "malloc");
    next_calloc = dlsym(RTLD_NEXT, "calloc");
    next_realloc = dlsym(RTLD_NEXT, "realloc");
    next_aligned_alloc = dlsym(RTLD_NEXT, "aligned_alloc");
    next_posix_memalign = dlsym(RTLD_NEXT, "posix_memalign");
    failing = number("FAIL_ALLOCATION", -1);
    first = number("FORK_FIRST", -1);
    every = number("FORK_EVERY", 1);
    const char *file = getenv("FORK_ALLOCATIONS");
    if (file)
        results = open(file, O_WRONLY | O_CREAT | O_APPEND | O_CLOEXEC, 0600);
}

static void stop(const char *why)
{
    dprintf(2, "fail_allocation: %s\n", why);
    _exit(99);
}

static void keep(const char *bytes, size_t length)
{
    while (length > 0) {
        ssize_t taken = write(results, bytes, length);
        if (taken < 0)
            stop("the results can't be written");
        bytes += taken;
        length -= taken;
    }
}

// Reads what the child writes, up to the buffer's size; the rest is dropped.
static void take_output(int from)
{
    static char rest[1 << 16];
    now->length = 0;
    for (;;) {
        size_t room = sizeof now->output - now->length;
        ssize_t taken = room ? read(from, now->output + now->length, room) : read(from, rest, sizeof rest);
        if (taken < 0 && errno != EINTR)
            stop("the child's output can't be read");
        if (taken == 0)
            return;
        if (taken > 0 && room)
            now->length += taken;
    }
}

// Writes how the child ended.
static void keep_outcome(void)
{
    char line[64];
    int is_same = now->status == before->status && now->length == before->length && !memcmp(now->output, before->output, now->length);
    keep(line, snprintf(line, sizeof line, "%ld %d %zd\n", count, now->status, is_same ? -1 : now->length));
    if (!is_same)
        keep(now->output, now->length);
    struct outcome *last = before;
    before = now;
    now = last;
}

// Forks, and returns whether this is the child, in which the allocation is to fail.
static int fork_here(void)
{
    int ends[2];
    if (pipe(ends))
        stop("no pipe");
    pid_t child = fork();
    if (child < 0)
        stop("no process");
    if (child == 0) {
        dup2(ends[1], 1);
        close(ends[0]);
        close(ends[1]);
        close(results);
        results = -1;
        alarm(10);
        return 1;
    }
    close(ends[1]);
    take_output(ends[0]);
    close(ends[0]);
    while (waitpid(child, &now->status, 0) < 0)
        if (errno != EINTR)
            stop("the child can't be waited for");
    keep_outcome();
    return 0;
}

// Counts an allocation, and returns whether it is to fail.
static int fails(void)
{
    find_next();
    count++;
    if (results >= 0 && (first < 0 || count <= first || count % every == 0))
        return fork_here();
    return count == failing;
}

void *malloc(size_t bytes)
{
    return fails() ? NULL : next_malloc(bytes);
}

void *calloc(size_t members, size_t bytes)
{
    return fails() ? NULL : next_calloc(members, bytes);
}

void *realloc(void *old, size_t bytes)
{
    return fails() ? NULL : next_realloc(old, bytes);
}

void *aligned_alloc(size_t alignment, size_t bytes)
{
    return fails() ? NULL : next_aligned_alloc(alignment, bytes);
}

int posix_memalign(void **place, size_t alignment, size_t bytes)
{
    return fails() ? ENOMEM : next_posix_memalign(place, alignment, bytes);
}

__attribute__((destructor)) static void tell_count(void)
{
    if (getenv("COUNT_ALLOCATIONS"))
        dprintf(2, "%ld\n", count);
}
