/* f25519_add: made by factc 1.0.0 function.
   Arrays are aligned by their elements, lie outside the stack below the caller, and no two that are not const overlap.
   For an observer of profile 1: neither the instructions that it executes, nor the addresses of its loads and stores,
   nor the operands of its divisions depend on secret arguments. Nothing is proved of time. */
#ifndef FACT_f25519_add_H
#define FACT_f25519_add_H
#include <stdbool.h>
#include <stdint.h>
#define f25519_add_STACK_BYTES 672
#ifdef __cplusplus
extern "C" {
#endif
void f25519_add(
    const uint32_t left[8] /* secret */,
    const uint32_t right[8] /* secret */,
    uint32_t result[8] /* secret */);
#ifdef __cplusplus
}
#endif
#endif
