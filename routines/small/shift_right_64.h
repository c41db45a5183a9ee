/* shift_right_64: made by factc 1.0.0 function.
   Arrays are aligned by their elements, lie outside the stack below the caller, and no two that are not const overlap.
   For an observer of profile 1: neither the instructions that it executes, nor the addresses of its loads and stores,
   nor the operands of its divisions depend on secret arguments. Nothing is proved of time. */
#ifndef FACT_shift_right_64_H
#define FACT_shift_right_64_H
#include <stdbool.h>
#include <stdint.h>
#define shift_right_64_STACK_BYTES 32
#ifdef __cplusplus
extern "C" {
#endif
void shift_right_64(
    uint32_t x[2] /* secret */,
    uint32_t amount /* secret */);
#ifdef __cplusplus
}
#endif
#endif
