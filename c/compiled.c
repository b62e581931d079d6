/* Calls the function that the program `compile` writes, with the arguments that are given and zeros in memory, and
   prints what it returns, or `trapped`, or `stack overflow`. A first argument -r WORDS gives the room on the stack,
   and -m then the size of memory: a second line is the hash of the memory that is left. */
#include <inttypes.h>
#include <signal.h>
#include <stdint.h>
#include <stdio.h>
#include <stdlib.h>
#include <string.h>
#include <unistd.h>

uint64_t compiled(const uint64_t *arguments, uint8_t *memory, uint64_t room);

/* as much as the functions at random have, and more; eight bytes before it are the code's */
static uint8_t bytes[8 + 4096];
static size_t size;

/* The 64-bit FNV-1a hash of the memory. */
static uint64_t hash(void) {
    uint64_t hash = 14695981039346656037u;
    for (size_t at = 0; at < size; at++)
        hash = (hash ^ bytes[8 + at]) * 1099511628211u;
    return hash;
}

/* How a run ends by a signal: a trap leaves a memory. */
static void ended(int signal) {
    puts(signal == SIGTRAP ? "stack overflow" : "trapped");
    if (size && signal != SIGTRAP)
        printf("memory: %" PRIu64 "\n", hash());
    fflush(stdout);
    _exit(0);
}

int main(int count, char **words) {
    uint64_t arguments[16] = {0}, room = 1 << 17, given = 0;
    for (int at = 1; at < count; at++) {
        if (strcmp(words[at], "-r") == 0 && at + 1 < count)
            room = strtoull(words[++at], NULL, 10);
        else if (strcmp(words[at], "-m") == 0 && at + 1 < count)
            size = strtoull(words[++at], NULL, 10);
        else if (given < 16)
            arguments[given++] = strtoull(words[at], NULL, 10);
    }
    signal(SIGILL, ended);
    signal(SIGFPE, ended);
    signal(SIGTRAP, ended);
    printf("%" PRIu64 "\n", compiled(arguments, bytes + 8, room));
    if (size)
        printf("memory: %" PRIu64 "\n", hash());
    return 0;
}
