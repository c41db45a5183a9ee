/* p256_scalar_multiply: made by factc 1.0.0 function.
   Arrays are aligned by their elements, lie outside the stack below the caller, and no two that are not const overlap.
   For an observer of profile 1: neither the instructions that it executes, nor the addresses of its loads and stores,
   nor the operands of its divisions depend on secret arguments. Nothing is proved of time. */
#ifndef FACT_p256_scalar_multiply_H
#define FACT_p256_scalar_multiply_H
#include <stdbool.h>
#include <stdint.h>
#define p256_scalar_multiply_STACK_BYTES 2928
#ifdef __cplusplus
extern "C" {
#endif
bool /* secret */ p256_scalar_multiply(
    const uint8_t scalar[32] /* secret */,
    const uint8_t point[64] /* secret */,
    uint8_t result[64] /* secret */);
#ifdef __cplusplus
}
#endif
#endif
