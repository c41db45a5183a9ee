/* speck64_decrypt: made by factc 1.0.0 function.
   Arrays are aligned by their elements, lie outside the stack below the caller, and no two that are not const overlap.
   For an observer of profile 1: neither the instructions that it executes, nor the addresses of its loads and stores,
   nor the operands of its divisions depend on secret arguments. Nothing is proved of time. */
#ifndef FACT_speck64_decrypt_H
#define FACT_speck64_decrypt_H
#include <stdbool.h>
#include <stdint.h>
#define speck64_decrypt_STACK_BYTES 64
#ifdef __cplusplus
extern "C" {
#endif
void speck64_decrypt(
    const uint32_t key[4] /* secret */,
    uint32_t block[2] /* secret */);
#ifdef __cplusplus
}
#endif
#endif
