/* Vectors, which tests/joined writes, and what a caller does with one. */
#ifndef CALLER_H
#define CALLER_H

#include <stdbool.h>
#include <stdint.h>

#define MOST_BYTES 1024

struct part {
    const uint8_t *bytes;
    uint32_t count;
};

/* The arguments, then what they give, where they are accepted. */
struct vector {
    const char *label;
    int accepted;
    struct part parts[6];
};

extern const struct vector vectors[];
extern const uint32_t vector_count;

/* What is wrong with a vector, else null: each file has a caller of its own. */
const char *wrong_with(const struct vector *vector);

static inline bool same(const uint8_t *given, struct part wanted) {
    int found = 0;
    for (uint32_t at = 0; at < wanted.count; at++)
        found |= given[at] ^ wanted.bytes[at];
    return found == 0;
}

static inline void taken(uint8_t *to, struct part from) {
    for (uint32_t at = 0; at < from.count; at++)
        to[at] = from.bytes[at];
}

static inline bool all_zero(const uint8_t *bytes, uint32_t count) {
    int found = 0;
    while (count--)
        found |= *bytes++;
    return found == 0;
}

#endif
