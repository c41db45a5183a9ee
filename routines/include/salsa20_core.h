/* salsa20_core: made by factc 1.0.0 function.
   Arrays are aligned by their elements, lie outside the stack below the caller, and no two that are not const overlap.
   For an observer of profile 1: neither the instructions that it executes, nor the addresses of its loads and stores,
   nor the operands of its divisions depend on secret arguments. Nothing is proved of time. */
#ifndef FACT_salsa20_core_H
#define FACT_salsa20_core_H
#include <stdbool.h>
#include <stdint.h>
#define salsa20_core_STACK_BYTES 208
#ifdef __cplusplus
extern "C" {
#endif
void salsa20_core(
    uint8_t block[64] /* secret */);
#ifdef __cplusplus
}
#endif
#endif
