#include "mix_table.h"

// The first bits of pi behind the point. The linker puts this table into .rodata, beside the code.
static const uint32_t round_constant[16] = {
    0x243f6a88, 0x85a308d3, 0x13198a2e, 0x03707344, 0xa4093822, 0x299f31d0, 0x082efa98, 0xec4e6c89,
    0x452821e6, 0x38d01377, 0xbe5466cf, 0x34e90c6c, 0xc0ac29b7, 0xc97c50dd, 0x3f84d5b5, 0xb5470917,
};

static uint32_t rotate_left(uint32_t word, int amount) {
    return word << amount | word >> (32 - amount);
}

void mix_table(uint32_t block[2], const uint32_t key[4]) {
    for (int round = 0; round < 16; round++) {
        block[0] += (rotate_left(block[1], 7) ^ key[round % 4]) + round_constant[round];
        block[1] ^= rotate_left(block[0], 13) + key[(round + 1) % 4];
    }
}
