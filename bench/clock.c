// A library that is preloaded into a program that does one task again and again, and says how long one time takes.
//
//   cc -O2 -shared -fPIC -o clock.so bench/clock.c
//   TRACE=1 LD_PRELOAD=./clock.so regalloc2_bench allocate 3 < function.json
//   MARK=80008 LD_PRELOAD=./clock.so regalloc2_bench allocate 100 < function.json
//
// With TRACE set, each block that is asked for is a line on standard error: how, and how many bytes. With MARK set to
// a number of bytes that each time asks for once, the clock is read at each such block, so that a period between two
// of them is one whole time, with what it frees. At the end one line goes to standard error: how many periods, the
// least, and the median, in nanoseconds.
#include <stdio.h>
#include <stdlib.h>
#include <time.h>
#include <unistd.h>

extern void *__libc_malloc(size_t);
extern void *__libc_calloc(size_t, size_t);

static size_t mark;
static int is_up, is_traced;
static long last, periods[1 << 16];
static size_t count;

__attribute__((constructor)) static void begin(void) {
    const char *bytes = getenv("MARK");
    mark = bytes ? (size_t)atol(bytes) : 0;
    is_traced = getenv("TRACE") != NULL;
    is_up = 1;
}

static long now(void) {
    struct timespec time;
    clock_gettime(CLOCK_MONOTONIC, &time);
    return time.tv_sec * 1000000000L + time.tv_nsec;
}

static void note(const char *how, size_t size) {
    if (!is_up) {
        return;
    }
    if (is_traced) {
        char line[64];
        int length = snprintf(line, sizeof line, "%s %zu\n", how, size);
        if (write(2, line, length) < 0) {
            _exit(3);
        }
    }
    if (mark && size == mark) {
        long time = now();
        if (last && count < sizeof periods / sizeof *periods) {
            periods[count++] = time - last;
        }
        last = time;
    }
}

void *malloc(size_t size) {
    note("malloc", size);
    return __libc_malloc(size);
}

void *calloc(size_t many, size_t size) {
    note("calloc", many * size);
    return __libc_calloc(many, size);
}

static int order(const void *one, const void *other) {
    long a = *(const long *)one, b = *(const long *)other;
    return (a > b) - (a < b);
}

__attribute__((destructor)) static void end(void) {
    if (!count) {
        return;
    }
    qsort(periods, count, sizeof *periods, order);
    fprintf(stderr, "periods %zu least %ld median %ld\n", count, periods[0], periods[count / 2]);
}
