/* equal_16: made by factc 1.0.0 function.
   Arrays are aligned by their elements, lie outside the stack below the caller, and no two that are not const overlap.
   For an observer of profile 1: neither the instructions that it executes, nor the addresses of its loads and stores,
   nor the operands of its divisions depend on secret arguments. Nothing is proved of time. */
#ifndef FACT_equal_16_H
#define FACT_equal_16_H
#include <stdbool.h>
#include <stdint.h>
#define equal_16_STACK_BYTES 48
#ifdef __cplusplus
extern "C" {
#endif
bool /* secret */ equal_16(
    const uint8_t a[16] /* secret */,
    const uint8_t b[16] /* secret */);
#ifdef __cplusplus
}
#endif
#endif
