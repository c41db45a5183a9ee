/* ed25519_point_add: made by factc 1.0.0 function.
   Arrays are aligned by their elements, lie outside the stack below the caller, and no two that are not const overlap.
   For an observer of profile 1: neither the instructions that it executes, nor the addresses of its loads and stores,
   nor the operands of its divisions depend on secret arguments. Nothing is proved of time. */
#ifndef FACT_ed25519_point_add_H
#define FACT_ed25519_point_add_H
#include <stdbool.h>
#include <stdint.h>
#define ed25519_point_add_STACK_BYTES 1216
#ifdef __cplusplus
extern "C" {
#endif
void ed25519_point_add(
    const uint32_t p[32] /* secret */,
    const uint32_t q[32] /* secret */,
    uint32_t sum[32] /* secret */);
#ifdef __cplusplus
}
#endif
#endif
