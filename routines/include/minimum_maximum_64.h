/* minimum_maximum_64: made by factc 1.0.0 function.
   Arrays are aligned by their elements, lie outside the stack below the caller, and no two that are not const overlap.
   For an observer of profile 1: neither the instructions that it executes, nor the addresses of its loads and stores,
   nor the operands of its divisions depend on secret arguments. Nothing is proved of time. */
#ifndef FACT_minimum_maximum_64_H
#define FACT_minimum_maximum_64_H
#include <stdbool.h>
#include <stdint.h>
#define minimum_maximum_64_STACK_BYTES 64
#ifdef __cplusplus
extern "C" {
#endif
void minimum_maximum_64(
    const uint32_t a[2] /* secret */,
    const uint32_t b[2] /* secret */,
    uint32_t ends[4] /* secret */);
#ifdef __cplusplus
}
#endif
#endif
