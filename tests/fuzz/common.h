/* What the harnesses of the fuzzer use. */

#include <stdint.h>
#include <stdio.h>
#include <stdlib.h>
#include <string.h>

/* Breaks the comparison on purpose, in one of three ways. tests/fuzz/run tries that each is found. */
#ifndef MISREAD
#define MISREAD 0
#endif

enum { FILL = 0xA5 };

/* A piece of memory of just this length, so that a byte beyond it is seen. */
static inline void *copied(const void *from, size_t length) {
    void *to = malloc(length);
    if (!to) abort();
    if (length) memcpy(to, from, length);
    return to;
}

static inline void *filled(size_t length) {
    void *to = malloc(length);
    if (!to) abort();
    memset(to, FILL, length);
    return to;
}

static inline uint32_t word_at(const uint8_t *bytes) {
    return bytes[0] | (uint32_t)bytes[1] << 8 | (uint32_t)bytes[2] << 16 | (uint32_t)bytes[3] << 24;
}
