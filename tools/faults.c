/* Loaded in front of the C library of a program (LD_PRELOAD), it refuses one allocation, fails one read or write, or cuts
   one short. Which one is a number, counted from 1, in the environment: REFUSE_ALLOCATION, FAIL_MOVE, SHORT_MOVE. A read
   or write of one byte is not cut, and not counted by SHORT_MOVE; with SHORT_BYTES each moves at most so many.
   TRACE_MOVES names a file, which gets a line for each read and write: r or w, the descriptor, the bytes that were moved,
   and how many allocations were asked for before it; and a last line with the allocations, the reads and writes, and those of
   more than one byte. tools/refusals.py runs it. */
#define _GNU_SOURCE
#include <dlfcn.h>
#include <errno.h>
#include <fcntl.h>
#include <stdio.h>
#include <stdlib.h>
#include <sys/syscall.h>
#include <unistd.h>

static long allocations, moves, long_moves, refused_at, failed_at, short_at, most_bytes;
static int trace = -1;

static long number(const char *name) {
    const char *text = getenv(name);
    return text ? atol(text) : 0;
}

/* Writes a line of the trace, and asks for no memory. */
static void note(const char *form, long first, long second, long third) {
    char line[100];
    int error = errno;
    if (trace >= 0) syscall(SYS_write, trace, line, snprintf(line, sizeof line, form, first, second, third));
    errno = error;
}

__attribute__((constructor)) static void begin(void) {
    refused_at = number("REFUSE_ALLOCATION");
    failed_at = number("FAIL_MOVE");
    short_at = number("SHORT_MOVE");
    most_bytes = number("SHORT_BYTES");
    const char *path = getenv("TRACE_MOVES");
    if (path) trace = open(path, O_WRONLY | O_CREAT | O_TRUNC, 0600);
    allocations = 0;
}

__attribute__((destructor)) static void end(void) {
    note("end %ld %ld %ld\n", allocations, moves, long_moves);
}

static int is_refused(void) {
    if (++allocations != refused_at) return 0;
    errno = ENOMEM;
    return 1;
}

void *malloc(size_t size) {
    static void *(*real)(size_t);
    if (!real) real = dlsym(RTLD_NEXT, "malloc");
    return is_refused() ? 0 : real(size);
}

void *realloc(void *block, size_t size) {
    static void *(*real)(void *, size_t);
    if (!real) real = dlsym(RTLD_NEXT, "realloc");
    return is_refused() ? 0 : real(block, size);
}

static ssize_t move(long call, const char *form, int descriptor, void *bytes, size_t size) {
    ssize_t moved = -1;
    if (++moves == failed_at) {
        errno = EIO;
    } else {
        if (size > 1 && ++long_moves == short_at) size = 1;
        if (most_bytes > 0 && size > (size_t)most_bytes) size = most_bytes;
        moved = syscall(call, descriptor, bytes, size);
    }
    note(form, descriptor, moved, allocations);
    return moved;
}

ssize_t read(int descriptor, void *bytes, size_t size) {
    return move(SYS_read, "r %ld %ld %ld\n", descriptor, bytes, size);
}

ssize_t write(int descriptor, const void *bytes, size_t size) {
    return move(SYS_write, "w %ld %ld %ld\n", descriptor, (void *)bytes, size);
}
