/* ghash_block: made by factc 1.0.0 function.
   Arrays are aligned by their elements, lie outside the stack below the caller, and no two that are not const overlap.
   For an observer of profile 1: neither the instructions that it executes, nor the addresses of its loads and stores,
   nor the operands of its divisions depend on secret arguments. Nothing is proved of time. */
#ifndef FACT_ghash_block_H
#define FACT_ghash_block_H
#include <stdbool.h>
#include <stdint.h>
#define ghash_block_STACK_BYTES 128
#ifdef __cplusplus
extern "C" {
#endif
void ghash_block(
    const uint8_t hash_key[16] /* secret */,
    const uint8_t block[16] /* secret */,
    uint8_t sum[16] /* secret */);
#ifdef __cplusplus
}
#endif
#endif
