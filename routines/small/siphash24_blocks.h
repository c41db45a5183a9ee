/* siphash24_blocks: made by factc 1.0.0 function.
   Arrays are aligned by their elements, lie outside the stack below the caller, and no two that are not const overlap.
   For an observer of profile 1: neither the instructions that it executes, nor the addresses of its loads and stores,
   nor the operands of its divisions depend on secret arguments. Nothing is proved of time. */
#ifndef FACT_siphash24_blocks_H
#define FACT_siphash24_blocks_H
#include <stdbool.h>
#include <stdint.h>
#define siphash24_blocks_STACK_BYTES 160
#ifdef __cplusplus
extern "C" {
#endif
void siphash24_blocks(
    uint32_t state[8] /* secret */,
    const uint8_t blocks[64] /* secret */,
    uint32_t count /* public */);
#ifdef __cplusplus
}
#endif
#endif
