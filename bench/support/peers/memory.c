/* What the calls need of a C library, by words where places allow it. It is not counted among a library's bytes. */
#include <stddef.h>
#include <stdint.h>

typedef uint32_t __attribute__((may_alias)) word;

void *memcpy(void *to, const void *from, size_t count) {
    unsigned char *target = to;
    const unsigned char *source = from;
    if (!(((uintptr_t)to | (uintptr_t)from) & 3))
        for (; count >= 4; count -= 4, target += 4, source += 4)
            *(word *)target = *(const word *)source;
    while (count--)
        *target++ = *source++;
    return to;
}

void *memmove(void *to, const void *from, size_t count) {
    unsigned char *target = to;
    const unsigned char *source = from;
    if (target <= source)
        return memcpy(to, from, count);
    while (count--)
        target[count] = source[count];
    return to;
}

void *memset(void *to, int value, size_t count) {
    unsigned char *target = to;
    const uint32_t bytes = 0x01010101u * (unsigned char)value;
    if (!((uintptr_t)to & 3))
        for (; count >= 4; count -= 4, target += 4)
            *(word *)target = bytes;
    while (count--)
        *target++ = (unsigned char)value;
    return to;
}

int memcmp(const void *one, const void *other, size_t count) {
    const unsigned char *a = one, *b = other;
    for (size_t i = 0; i < count; i++)
        if (a[i] != b[i])
            return a[i] - b[i];
    return 0;
}

size_t strlen(const char *text) {
    size_t length = 0;
    while (text[length])
        length++;
    return length;
}

char *strchr(const char *text, int wanted) {
    for (; *text; text++)
        if (*text == (char)wanted)
            return (char *)text;
    return NULL;
}

void abort(void) {
    for (;;) { }
}
