/* What the three harnesses share: blocks that are allocated to the byte, and cells that have to be 0. */
#include <stddef.h>
#include <stdint.h>
#include <stdlib.h>
#include <string.h>

static inline void *filled(size_t bytes, int pattern) {
    void *p = malloc(bytes);
    if (p == NULL) exit(2);
    memset(p, pattern, bytes);
    return p;
}

static inline int is_zero(const void *p, size_t from, size_t to) {
    const uint8_t *b = p;
    for (size_t i = from; i < to; i++)
        if (b[i] != 0) return 0;
    return 1;
}
