#include <stdbool.h>
#include <stdint.h>

// One of two words, by a mask. There is no branch here; gcc makes none, and clang makes one.
uint32_t chosen(bool flag, uint32_t one, uint32_t other) {
    uint32_t mask = 0 - (uint32_t)flag;
    return (one & mask) | (other & ~mask);
}
