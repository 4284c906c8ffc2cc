/* Lent memory, filled before a call, so that what stays can be told from what is written. */
#ifndef TEST_LENT_H
#define TEST_LENT_H

#include "cases.h"

static inline uint32_t *take_words(uint32_t words) {
    uint32_t *table = take((unsigned long)words * 4);
    for (uint32_t i = 0; i < words; i++) table[i] = 0xA5A5A5A5u;
    return table;
}

static inline uint8_t *take_bytes(uint32_t bytes) {
    uint8_t *buffer = take(bytes);
    for (uint32_t i = 0; i < bytes; i++) buffer[i] = 0x5A;
    return buffer;
}

#endif
