#ifndef SAME_BYTES_H
#define SAME_BYTES_H

#include <stddef.h>
#include <stdint.h>

/* Whether two MACs are the same. Both are read to their ends: memcmp may stop where they first differ, and its time then
 * tells whoever sends one how many of its bytes are right. tests/memcheck looks at what the compiler makes of this. */
static inline int same_bytes(const uint8_t *a, const uint8_t *b, size_t len) {
    uint8_t difference = 0;
    for (size_t i = 0; i < len; i++)
        difference |= a[i] ^ b[i];
    return difference == 0;
}

#endif
