/* Runs three programs that `compile` compiled beside the same in C: what they return and leave in memory must be the
   same. Prints the least time of ten runs of each, beside those of C by the compiler's levels 0 and 1. */
#include <inttypes.h>
#include <stdint.h>
#include <stdio.h>
#include <stdlib.h>
#include <string.h>
#include <time.h>

#define SIZE 1000000

/* The programs in C don't look at the room on the stack. */
typedef uint64_t program(const uint64_t *arguments, uint8_t *memory, uint64_t room);
program compiled_sieve, sieve_O0, sieve_O1, compiled_hash, hash_O0, hash_O1, compiled_sort, sort_O0, sort_O1;

struct task {
    const char *name;
    program *ways[3];
    uint64_t argument;
    int has_zeros;
};

static const struct task tasks[] = {
    {"sieve", {compiled_sieve, sieve_O0, sieve_O1}, SIZE, 1},
    {"hash", {compiled_hash, hash_O0, hash_O1}, SIZE, 0},
    {"sort", {compiled_sort, sort_O0, sort_O1}, SIZE / 4, 0},
};

/* The compiled code overwrites eight bytes before its memory. */
static uint8_t before[SIZE], bytes[8 + SIZE], wanted[SIZE], *const memory = bytes + 8;

static double now(void) {
    struct timespec at;
    clock_gettime(CLOCK_MONOTONIC, &at);
    return (double)at.tv_sec + 1e-9 * (double)at.tv_nsec;
}

/* The least time of ten runs; the last one's result and memory are left. */
static double least_time(program *way, uint64_t argument, uint64_t *result) {
    double least = 1e9;
    for (int run = 0; run < 10; run++) {
        memcpy(memory, before, SIZE);
        double start = now();
        *result = way(&argument, memory, 1 << 17);
        double took = now() - start;
        least = took < least ? took : least;
    }
    return least;
}

int main(void) {
    for (size_t k = 0; k < sizeof tasks / sizeof tasks[0]; k++) {
        const struct task *task = &tasks[k];
        uint64_t random = 1, results[3];
        double times[3];
        for (size_t at = 0; at < SIZE; at++) {
            random = random * 6364136223846793005u + 1442695040888963407u;
            before[at] = task->has_zeros ? 0 : (uint8_t)(random >> 56);
        }
        for (int way = 2; way >= 0; way--) {
            times[way] = least_time(task->ways[way], task->argument, &results[way]);
            if (way == 2) {
                memcpy(wanted, memory, SIZE);
            } else if (results[way] != results[2] || memcmp(wanted, memory, SIZE) != 0) {
                printf("%s: returns %" PRIu64 " and not %" PRIu64 ", or leaves another memory\n", task->name, results[way], results[2]);
                return 1;
            }
        }
        printf("%s: %.2f ms, %.2f of C at level 0 and %.2f at level 1\n", task->name, 1e3 * times[0], times[0] / times[1], times[0] / times[2]);
    }
    return 0;
}
