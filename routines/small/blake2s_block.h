/* blake2s_block: made by factc 1.0.0 function.
   Arrays are aligned by their elements, lie outside the stack below the caller, and no two that are not const overlap.
   For an observer of profile 1: neither the instructions that it executes, nor the addresses of its loads and stores,
   nor the operands of its divisions depend on secret arguments. Nothing is proved of time. */
#ifndef FACT_blake2s_block_H
#define FACT_blake2s_block_H
#include <stdbool.h>
#include <stdint.h>
#define blake2s_block_STACK_BYTES 336
#ifdef __cplusplus
extern "C" {
#endif
void blake2s_block(
    uint32_t state[8] /* secret */,
    const uint8_t block[64] /* secret */,
    const uint32_t count[2] /* public */,
    bool last /* public */);
#ifdef __cplusplus
}
#endif
#endif
