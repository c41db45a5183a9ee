/* modular_power_128: made by factc 1.0.0 function.
   Arrays are aligned by their elements, lie outside the stack below the caller, and no two that are not const overlap.
   For an observer of profile 1: neither the instructions that it executes, nor the addresses of its loads and stores,
   nor the operands of its divisions depend on secret arguments. Nothing is proved of time. */
#ifndef FACT_modular_power_128_H
#define FACT_modular_power_128_H
#include <stdbool.h>
#include <stdint.h>
#define modular_power_128_STACK_BYTES 288
#ifdef __cplusplus
extern "C" {
#endif
void modular_power_128(
    const uint32_t base[8] /* secret */,
    const uint32_t exponent[8] /* secret */,
    const uint32_t modulus[8] /* secret */,
    uint32_t power[8] /* secret */);
#ifdef __cplusplus
}
#endif
#endif
