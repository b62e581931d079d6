// A library that is preloaded into a built program and fails one request for memory, one read or one write, or makes
// reads and writes short.
//
//   cc -O2 -shared -fPIC -o refuse.so tools/refuse.c -ldl
//   FAIL_ALLOC=17 LD_PRELOAD=./refuse.so ra2 run < function.json
//
// FAIL_ALLOC=N, FAIL_READ=N and FAIL_WRITE=N fail the Nth of these, counted from 1. SHORT_READ=N and SHORT_WRITE=N
// let at most N bytes pass. REPORT=FD writes there, at the end, how many requests, reads and writes came. Writes to
// standard error never fail.
#define _GNU_SOURCE
#include <dlfcn.h>
#include <errno.h>
#include <stdio.h>
#include <stdlib.h>
#include <unistd.h>

extern void *__libc_malloc(size_t);
extern void *__libc_realloc(void *, size_t);
extern void *__libc_calloc(size_t, size_t);
extern void *__libc_memalign(size_t, size_t);

static long allocs, reads, writes;
static long fail_alloc, fail_read, fail_write, short_read, short_write, report;
static int started;

static long number(const char *name) {
    const char *text = getenv(name);
    return text ? atol(text) : 0;
}

__attribute__((constructor)) static void start(void) {
    fail_alloc = number("FAIL_ALLOC");
    fail_read = number("FAIL_READ");
    fail_write = number("FAIL_WRITE");
    short_read = number("SHORT_READ");
    short_write = number("SHORT_WRITE");
    report = number("REPORT");
    started = 1;
}

__attribute__((destructor)) static void end(void) {
    started = 0;
    if (report) {
        dprintf((int)report, "%ld %ld %ld\n", allocs, reads, writes);
    }
}

static int refuses(void) {
    if (!started) {
        return 0;
    }
    allocs++;
    if (allocs != fail_alloc) {
        return 0;
    }
    errno = ENOMEM;
    return 1;
}

void *malloc(size_t size) { return refuses() ? NULL : __libc_malloc(size); }
void *calloc(size_t count, size_t size) { return refuses() ? NULL : __libc_calloc(count, size); }
void *realloc(void *old, size_t size) { return refuses() ? NULL : __libc_realloc(old, size); }
void *aligned_alloc(size_t align, size_t size) { return refuses() ? NULL : __libc_memalign(align, size); }

int posix_memalign(void **found, size_t align, size_t size) {
    if (refuses()) {
        return ENOMEM;
    }
    *found = __libc_memalign(align, size);
    return *found ? 0 : ENOMEM;
}

ssize_t read(int file, void *bytes, size_t size) {
    static ssize_t (*next)(int, void *, size_t);
    if (!next) {
        next = dlsym(RTLD_NEXT, "read");
    }
    if (++reads == fail_read) {
        errno = EIO;
        return -1;
    }
    return next(file, bytes, short_read && size > (size_t)short_read ? (size_t)short_read : size);
}

ssize_t write(int file, const void *bytes, size_t size) {
    static ssize_t (*next)(int, const void *, size_t);
    if (!next) {
        next = dlsym(RTLD_NEXT, "write");
    }
    if (++writes == fail_write && file != STDERR_FILENO) {
        errno = EIO;
        return -1;
    }
    return next(file, bytes, short_write && size > (size_t)short_write ? (size_t)short_write : size);
}
