#include "digest_class.h"

static void begin(uint32_t *state) {
    *state = 0x811c9dc5;
}

static void take(uint32_t *state, const uint8_t *bytes, size_t count) {
    for (size_t i = 0; i < count; i++) {
        *state = (*state ^ bytes[i]) * 0x01000193;
    }
}

static uint32_t end(const uint32_t *state) {
    return *state ^ *state >> 16;
}

// The linker puts the table of functions into .rodata: addresses of code, as data.
const struct digest_class digest = {begin, take, end};

uint32_t digest_of(const struct digest_class *class, const uint8_t *bytes, size_t count) {
    uint32_t state;
    class->begin(&state);
    class->take(&state, bytes, count);
    return class->end(&state);
}
