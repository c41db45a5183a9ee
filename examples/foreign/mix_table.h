#include <stdint.h>

// Mixes a block with a key, sixteen rounds, each with a constant from a table.
void mix_table(uint32_t block[2], const uint32_t key[4]);
