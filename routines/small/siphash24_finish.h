/* siphash24_finish: made by factc 1.0.0 function.
   Arrays are aligned by their elements, lie outside the stack below the caller, and no two that are not const overlap.
   For an observer of profile 1: neither the instructions that it executes, nor the addresses of its loads and stores,
   nor the operands of its divisions depend on secret arguments. Nothing is proved of time. */
#ifndef FACT_siphash24_finish_H
#define FACT_siphash24_finish_H
#include <stdbool.h>
#include <stdint.h>
#define siphash24_finish_STACK_BYTES 96
#ifdef __cplusplus
extern "C" {
#endif
void siphash24_finish(
    const uint32_t state[8] /* secret */,
    const uint8_t last[8] /* secret */,
    uint8_t tag[8] /* secret */);
#ifdef __cplusplus
}
#endif
#endif
