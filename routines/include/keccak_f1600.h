/* keccak_f1600: made by factc 1.0.0 function.
   Arrays are aligned by their elements, lie outside the stack below the caller, and no two that are not const overlap.
   For an observer of profile 1: neither the instructions that it executes, nor the addresses of its loads and stores,
   nor the operands of its divisions depend on secret arguments. Nothing is proved of time. */
#ifndef FACT_keccak_f1600_H
#define FACT_keccak_f1600_H
#include <stdbool.h>
#include <stdint.h>
#define keccak_f1600_STACK_BYTES 656
#ifdef __cplusplus
extern "C" {
#endif
void keccak_f1600(
    uint32_t state[50] /* secret */);
#ifdef __cplusplus
}
#endif
#endif
