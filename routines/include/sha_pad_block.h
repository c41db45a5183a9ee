/* sha_pad_block: made by factc 1.0.0 function.
   Arrays are aligned by their elements, lie outside the stack below the caller, and no two that are not const overlap.
   For an observer of profile 1: neither the instructions that it executes, nor the addresses of its loads and stores,
   nor the operands of its divisions depend on secret arguments. Nothing is proved of time. */
#ifndef FACT_sha_pad_block_H
#define FACT_sha_pad_block_H
#include <stdbool.h>
#include <stdint.h>
#define sha_pad_block_STACK_BYTES 128
#ifdef __cplusplus
extern "C" {
#endif
bool /* secret */ sha_pad_block(
    uint8_t block[64] /* secret */,
    uint32_t number /* public */,
    uint32_t length /* secret */);
#ifdef __cplusplus
}
#endif
#endif
