// A library that is preloaded into a built program and says how much memory its last phase holds at most.
//
//   cc -O2 -shared -fPIC -o heap.so bench/heap.c -ldl
//   LD_PRELOAD=./heap.so regalloc2_bench allocate 0 < function.json
//
// Counted are the bytes that are held at a time, as malloc_usable_size gives them. At the end one line goes to
// standard error: by how many bytes the total rose, at most, above its least value since it was greatest. A program
// that reads a function mostly holds most while it reads, since the text is there too, so this is what the run after
// that takes beside the function. Where the run holds more than the reading did, as with upstream's small reader on
// some shapes, the line says too little, unless the run is done several times.
#define _GNU_SOURCE
#include <malloc.h>
#include <stdio.h>
#include <stdlib.h>

extern void *__libc_malloc(size_t);
extern void *__libc_realloc(void *, size_t);
extern void *__libc_calloc(size_t, size_t);
extern void *__libc_memalign(size_t, size_t);
extern void __libc_free(void *);

static long held, greatest, least, rise;

static void *changed(void *p, long before) {
    held += (p ? (long)malloc_usable_size(p) : 0) - before;
    if (held > greatest) {
        greatest = least = held;
        rise = 0;
    }
    if (held < least) {
        least = held;
    }
    if (held - least > rise) {
        rise = held - least;
    }
    return p;
}

__attribute__((destructor)) static void end(void) { fprintf(stderr, "heap %ld\n", rise); }

void *malloc(size_t size) { return changed(__libc_malloc(size), 0); }

void *calloc(size_t count, size_t size) { return changed(__libc_calloc(count, size), 0); }

void *memalign(size_t align, size_t size) { return changed(__libc_memalign(align, size), 0); }

void *aligned_alloc(size_t align, size_t size) { return memalign(align, size); }

int posix_memalign(void **to, size_t align, size_t size) {
    *to = memalign(align, size);
    return *to ? 0 : 12;
}

void *realloc(void *p, size_t size) {
    long before = p ? (long)malloc_usable_size(p) : 0;
    void *q = __libc_realloc(p, size);
    return q || size == 0 ? changed(q, before) : q;
}

void free(void *p) {
    changed(NULL, p ? (long)malloc_usable_size(p) : 0);
    __libc_free(p);
}
