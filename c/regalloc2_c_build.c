/* regalloc2_c_build.c: what `regalloc2_c_build` returns. The Makefile compiles it into the archive, and says which commit it builds and whether
   `rt lib` proved that archive. */
#include "regalloc2_c.h"
#include <string.h>

#ifndef RA2_BUILD
#define RA2_BUILD "of unknown origin"
#endif

size_t regalloc2_c_build(uint8_t *text, size_t text_len)
{
    static const char build[] = RA2_RELEASE " " RA2_BUILD;
    const size_t len = sizeof build - 1;
    if (text_len != 0) {
        memcpy(text, build, len < text_len ? len : text_len);
    }
    return len;
}
