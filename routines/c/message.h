/* Moving bytes, for the files of this folder. Addresses and counts decide what an observer sees of it, and the bytes do not. */
#ifndef HEPURITA_MESSAGE_H
#define HEPURITA_MESSAGE_H
#include <stdint.h>

/* A compiler could take a loop that copies or clears for a call of memcpy or memset, which a program without a C library has not. The
   empty asm keeps it a loop. */
#define AS_IT_STANDS __asm__ volatile("")

static inline void copied(uint8_t *to, const uint8_t *from, uint32_t count) {
    for (uint32_t at = 0; at < count; at++) {
        AS_IT_STANDS;
        to[at] = from[at];
    }
}

static inline void copied_words(uint32_t *to, const uint32_t *from, uint32_t count) {
    for (uint32_t at = 0; at < count; at++) {
        AS_IT_STANDS;
        to[at] = from[at];
    }
}

static inline void added(uint8_t *to, const uint8_t *from, uint32_t count) {
    for (uint32_t at = 0; at < count; at++)
        to[at] ^= from[at];
}

static inline void filled(uint8_t *to, uint8_t byte, uint32_t count) {
    for (uint32_t at = 0; at < count; at++) {
        AS_IT_STANDS;
        to[at] = byte;
    }
}

/* Volatile, so that no compiler leaves it out. */
static inline void wiped(void *place, uint32_t count) {
    volatile uint8_t *bytes = (volatile uint8_t *)place;
    while (count--)
        *bytes++ = 0;
}

/* The bytes of a word, the highest first, and the lowest first. */
static inline void highest_first(uint8_t *bytes, uint32_t word) {
    for (int at = 0; at < 4; at++)
        bytes[at] = (uint8_t)(word >> (24 - 8 * at));
}

static inline void lowest_first(uint8_t *bytes, uint32_t word) {
    for (int at = 0; at < 4; at++)
        bytes[at] = (uint8_t)(word >> 8 * at);
}

static inline uint32_t lowest_first_word(const uint8_t *bytes) {
    return bytes[0] | (uint32_t)bytes[1] << 8 | (uint32_t)bytes[2] << 16 | (uint32_t)bytes[3] << 24;
}

#endif
