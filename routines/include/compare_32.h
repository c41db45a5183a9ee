/* compare_32: made by factc 1.0.0 function.
   Arrays are aligned by their elements, lie outside the stack below the caller, and no two that are not const overlap.
   For an observer of profile 1: neither the instructions that it executes, nor the addresses of its loads and stores,
   nor the operands of its divisions depend on secret arguments. Nothing is proved of time. */
#ifndef FACT_compare_32_H
#define FACT_compare_32_H
#include <stdbool.h>
#include <stdint.h>
#define compare_32_STACK_BYTES 80
#ifdef __cplusplus
extern "C" {
#endif
uint8_t /* secret */ compare_32(
    const uint8_t a[32] /* secret */,
    const uint8_t b[32] /* secret */);
#ifdef __cplusplus
}
#endif
#endif
