/* sha1_block: made by factc 1.0.0 function.
   Arrays are aligned by their elements, lie outside the stack below the caller, and no two that are not const overlap.
   For an observer of profile 1: neither the instructions that it executes, nor the addresses of its loads and stores,
   nor the operands of its divisions depend on secret arguments. Nothing is proved of time. */
#ifndef FACT_sha1_block_H
#define FACT_sha1_block_H
#include <stdbool.h>
#include <stdint.h>
#define sha1_block_STACK_BYTES 240
#ifdef __cplusplus
extern "C" {
#endif
void sha1_block(
    uint32_t state[5] /* secret */,
    const uint8_t block[64] /* secret */);
#ifdef __cplusplus
}
#endif
#endif
