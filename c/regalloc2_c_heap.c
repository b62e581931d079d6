/* The memory that libregalloc2_c.a asks for, from malloc. Link this, or the toolchain's liblibc_c.a, or three
   functions of your own. */
#include "regalloc2_c.h"
#include <stdlib.h>

static uint8_t nothing;

static struct rattle_tried tried(void *p) {
    return (struct rattle_tried){p != NULL, p ? p : &nothing};
}

struct rattle_tried rattle_alloc(size_t size, size_t align) {
    return tried(malloc(size ? size : align));
}

struct rattle_tried rattle_realloc(uint8_t *p, size_t kept, size_t size, size_t align) {
    (void)kept;
    return tried(realloc(p, size ? size : align));
}

void rattle_dealloc(uint8_t *p) {
    free(p);
}
