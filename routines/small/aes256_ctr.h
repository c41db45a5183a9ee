/* aes256_ctr: made by factc 1.0.0 function.
   Arrays are aligned by their elements, lie outside the stack below the caller, and no two that are not const overlap.
   For an observer of profile 1: neither the instructions that it executes, nor the addresses of its loads and stores,
   nor the operands of its divisions depend on secret arguments. Nothing is proved of time. */
#ifndef FACT_aes256_ctr_H
#define FACT_aes256_ctr_H
#include <stdbool.h>
#include <stdint.h>
#define aes256_ctr_STACK_BYTES 1104
#ifdef __cplusplus
extern "C" {
#endif
void aes256_ctr(
    const uint32_t keys[120] /* secret */,
    uint8_t counter[16] /* secret */,
    uint8_t data[256] /* secret */,
    uint32_t length /* public */);
#ifdef __cplusplus
}
#endif
#endif
