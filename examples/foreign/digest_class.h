#include <stddef.h>
#include <stdint.h>

// A checksum behind a table of functions, as libraries have it: callers know the table alone.
struct digest_class {
    void (*begin)(uint32_t *state);
    void (*take)(uint32_t *state, const uint8_t *bytes, size_t count);
    uint32_t (*end)(const uint32_t *state);
};

extern const struct digest_class digest;

uint32_t digest_of(const struct digest_class *class, const uint8_t *bytes, size_t count);
