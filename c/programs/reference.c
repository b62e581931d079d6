/* The three programs in C, compiled twice: `LEVEL` names what they are compiled with. */
#include <stdint.h>
#include <string.h>

#define JOINED(name, level) name##_##level
#define NAMED(name, level) JOINED(name, level)

uint64_t NAMED(sieve, LEVEL)(const uint64_t *arguments, uint8_t *memory, uint64_t room) {
    (void)room;
    uint64_t count = 0;
    for (uint64_t n = 2; n < arguments[0]; n++) {
        if (memory[n]) {
            continue;
        }
        for (uint64_t multiple = n * n; multiple < arguments[0]; multiple += n) {
            memory[multiple] = 1;
        }
        count++;
    }
    return count;
}

uint64_t NAMED(hash, LEVEL)(const uint64_t *arguments, uint8_t *memory, uint64_t room) {
    (void)room;
    uint64_t hash = 14695981039346656037u;
    for (uint64_t at = 0; at < arguments[0]; at++) {
        hash = (hash ^ memory[at]) * 1099511628211u;
    }
    return hash;
}

uint64_t NAMED(sort, LEVEL)(const uint64_t *arguments, uint8_t *memory, uint64_t room) {
    (void)room;
    uint32_t *numbers = (uint32_t *)memory;
    for (uint64_t gap = arguments[0] / 2; gap > 0; gap /= 2) {
        for (uint64_t from = gap; from < arguments[0]; from++) {
            uint32_t number = numbers[from];
            uint64_t at = from;
            for (; at >= gap && number < numbers[at - gap]; at -= gap) {
                numbers[at] = numbers[at - gap];
            }
            numbers[at] = number;
        }
    }
    return arguments[0];
}
