/* ascon_permute: made by factc 1.0.0 function.
   Arrays are aligned by their elements, lie outside the stack below the caller, and no two that are not const overlap.
   For an observer of profile 1: neither the instructions that it executes, nor the addresses of its loads and stores,
   nor the operands of its divisions depend on secret arguments. Nothing is proved of time. */
#ifndef FACT_ascon_permute_H
#define FACT_ascon_permute_H
#include <stdbool.h>
#include <stdint.h>
#define ascon_permute_STACK_BYTES 112
#ifdef __cplusplus
extern "C" {
#endif
void ascon_permute(
    uint32_t state[10] /* secret */,
    uint32_t rounds /* public */);
#ifdef __cplusplus
}
#endif
#endif
