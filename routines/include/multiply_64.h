/* multiply_64: made by factc 1.0.0 function.
   Arrays are aligned by their elements, lie outside the stack below the caller, and no two that are not const overlap.
   For an observer of profile 1: neither the instructions that it executes, nor the addresses of its loads and stores,
   nor the operands of its divisions depend on secret arguments. Nothing is proved of time. */
#ifndef FACT_multiply_64_H
#define FACT_multiply_64_H
#include <stdbool.h>
#include <stdint.h>
#define multiply_64_STACK_BYTES 48
#ifdef __cplusplus
extern "C" {
#endif
void multiply_64(
    uint32_t a /* secret */,
    uint32_t b /* secret */,
    uint32_t product[2] /* secret */);
#ifdef __cplusplus
}
#endif
#endif
