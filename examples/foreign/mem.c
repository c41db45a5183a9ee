/* What compilers call without being told: for a struct that is copied, an array that begins as zeros, a loop that does what one of
   these functions does. A C library has them, -lgcc has not. They go byte by byte, so addresses and counts decide what an observer
   sees of them, and the bytes do not.

   A compiler could take such a loop for a call of the very function that it stands in. The empty asm keeps it a loop; without it
   gcc needs -fno-tree-loop-distribute-patterns. */
#include <stddef.h>

#define AS_IT_STANDS __asm__ volatile("")

static void *copied(unsigned char *to, const unsigned char *from, size_t count) {
    for (size_t at = 0; at < count; at++) {
        AS_IT_STANDS;
        to[at] = from[at];
    }
    return to;
}

void *memcpy(void *to, const void *from, size_t count) {
    return copied(to, from, count);
}

/* The two may overlap: where the target begins behind the source, the last byte is copied first. */
void *memmove(void *to, const void *from, size_t count) {
    unsigned char *target = to;
    const unsigned char *source = from;
    if (target <= source)
        return copied(target, source, count);
    for (size_t at = count; at > 0; at--) {
        AS_IT_STANDS;
        target[at - 1] = source[at - 1];
    }
    return to;
}

void *memset(void *to, int value, size_t count) {
    unsigned char *target = to;
    for (size_t at = 0; at < count; at++) {
        AS_IT_STANDS;
        target[at] = (unsigned char)value;
    }
    return to;
}
