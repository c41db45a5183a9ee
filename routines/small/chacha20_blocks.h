/* chacha20_blocks: made by factc 1.0.0 function.
   Arrays are aligned by their elements, lie outside the stack below the caller, and no two that are not const overlap.
   For an observer of profile 1: neither the instructions that it executes, nor the addresses of its loads and stores,
   nor the operands of its divisions depend on secret arguments. Nothing is proved of time. */
#ifndef FACT_chacha20_blocks_H
#define FACT_chacha20_blocks_H
#include <stdbool.h>
#include <stdint.h>
#define chacha20_blocks_STACK_BYTES 624
#ifdef __cplusplus
extern "C" {
#endif
void chacha20_blocks(
    const uint8_t key[32] /* secret */,
    uint32_t counter /* public */,
    const uint8_t nonce[12] /* public */,
    uint8_t data[256] /* secret */,
    uint32_t length /* public */);
#ifdef __cplusplus
}
#endif
#endif
