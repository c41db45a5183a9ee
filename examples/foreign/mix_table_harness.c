#include "mix_table.h"

// What is certified: the function on buffers of its caller. Both are secret.
uint32_t key[4];
uint32_t block[2];

void harness(void) {
    mix_table(block, key);
}
