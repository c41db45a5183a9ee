/* modular_power_32: made by factc 1.0.0 function.
   Arrays are aligned by their elements, lie outside the stack below the caller, and no two that are not const overlap.
   For an observer of profile 1: neither the instructions that it executes, nor the addresses of its loads and stores,
   nor the operands of its divisions depend on secret arguments. Nothing is proved of time. */
#ifndef FACT_modular_power_32_H
#define FACT_modular_power_32_H
#include <stdbool.h>
#include <stdint.h>
#define modular_power_32_STACK_BYTES 64
#ifdef __cplusplus
extern "C" {
#endif
uint32_t /* secret */ modular_power_32(
    uint32_t base /* secret */,
    uint32_t exponent /* secret */,
    uint32_t modulus /* secret */);
#ifdef __cplusplus
}
#endif
#endif
