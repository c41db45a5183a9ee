/* gf256_multiply: made by factc 1.0.0 function.
   Arrays are aligned by their elements, lie outside the stack below the caller, and no two that are not const overlap.
   For an observer of profile 1: neither the instructions that it executes, nor the addresses of its loads and stores,
   nor the operands of its divisions depend on secret arguments. Nothing is proved of time. */
#ifndef FACT_gf256_multiply_H
#define FACT_gf256_multiply_H
#include <stdbool.h>
#include <stdint.h>
#define gf256_multiply_STACK_BYTES 112
#ifdef __cplusplus
extern "C" {
#endif
void gf256_multiply(
    const uint8_t a[16] /* secret */,
    const uint8_t b[16] /* secret */,
    uint8_t product[16] /* secret */);
#ifdef __cplusplus
}
#endif
#endif
