/* x25519_step: made by factc 1.0.0 function.
   Arrays are aligned by their elements, lie outside the stack below the caller, and no two that are not const overlap.
   For an observer of profile 1: neither the instructions that it executes, nor the addresses of its loads and stores,
   nor the operands of its divisions depend on secret arguments. Nothing is proved of time. */
#ifndef FACT_x25519_step_H
#define FACT_x25519_step_H
#include <stdbool.h>
#include <stdint.h>
#define x25519_step_STACK_BYTES 1040
#ifdef __cplusplus
extern "C" {
#endif
void x25519_step(
    bool swaps /* secret */,
    const uint32_t coordinate[8] /* secret */,
    uint32_t points[32] /* secret */);
#ifdef __cplusplus
}
#endif
#endif
