/* ed25519_reduce: made by factc 1.0.0 function.
   Arrays are aligned by their elements, lie outside the stack below the caller, and no two that are not const overlap.
   For an observer of profile 1: neither the instructions that it executes, nor the addresses of its loads and stores,
   nor the operands of its divisions depend on secret arguments. Nothing is proved of time. */
#ifndef FACT_ed25519_reduce_H
#define FACT_ed25519_reduce_H
#include <stdbool.h>
#include <stdint.h>
#define ed25519_reduce_STACK_BYTES 736
#ifdef __cplusplus
extern "C" {
#endif
void ed25519_reduce(
    const uint8_t bytes[64] /* secret */,
    uint8_t scalar[32] /* secret */);
#ifdef __cplusplus
}
#endif
#endif
