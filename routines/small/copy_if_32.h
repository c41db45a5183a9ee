/* copy_if_32: made by factc 1.0.0 function.
   Arrays are aligned by their elements, lie outside the stack below the caller, and no two that are not const overlap.
   For an observer of profile 1: neither the instructions that it executes, nor the addresses of its loads and stores,
   nor the operands of its divisions depend on secret arguments. Nothing is proved of time. */
#ifndef FACT_copy_if_32_H
#define FACT_copy_if_32_H
#include <stdbool.h>
#include <stdint.h>
#define copy_if_32_STACK_BYTES 96
#ifdef __cplusplus
extern "C" {
#endif
void copy_if_32(
    bool choice /* secret */,
    const uint8_t source[32] /* secret */,
    uint8_t target[32] /* secret */);
#ifdef __cplusplus
}
#endif
#endif
