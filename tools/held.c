/* Loaded in front of the C library of a program (LD_PRELOAD), it counts the bytes of memory in the blocks that the program holds. HELD
   names a file of 16 bytes: there it keeps two numbers, the bytes that are held now and the most that ever were. A program of
   one thread only. tools/host_checks.py runs it. */
#define _GNU_SOURCE
#include <fcntl.h>
#include <malloc.h>
#include <stdlib.h>
#include <sys/mman.h>
#include <unistd.h>

extern void *__libc_malloc(size_t), *__libc_calloc(size_t, size_t), *__libc_realloc(void *, size_t);
extern void __libc_free(void *);

static struct { long now, most; } before, *held = &before;

__attribute__((constructor)) static void begin(void) {
    const char *path = getenv("HELD");
    int file = path ? open(path, O_RDWR) : -1;
    void *page = file < 0 ? MAP_FAILED : mmap(0, sizeof before, PROT_READ | PROT_WRITE, MAP_SHARED, file, 0);
    if (file >= 0) close(file);
    if (page == MAP_FAILED) return;
    held = page;
    *held = before;
}

static void *counted(void *block, long old) {
    held->now += (long)malloc_usable_size(block) - old;
    if (held->now > held->most) held->most = held->now;
    return block;
}

void *malloc(size_t size) {
    return counted(__libc_malloc(size), 0);
}

void *calloc(size_t count, size_t size) {
    return counted(__libc_calloc(count, size), 0);
}

void *realloc(void *block, size_t size) {
    long old = malloc_usable_size(block);
    void *moved = __libc_realloc(block, size);
    return moved || !size ? counted(moved, old) : 0;
}

void free(void *block) {
    held->now -= malloc_usable_size(block);
    __libc_free(block);
}
