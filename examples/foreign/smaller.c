#include <stdint.h>

// The smaller of two secret numbers, by a mask. There is no branch here, but gcc compares two numbers of 64 bits by branches.
uint64_t smaller(uint64_t one, uint64_t other) {
    uint64_t mask = 0 - (uint64_t)(one < other);
    return other ^ (mask & (one ^ other));
}
