/* mlkem_sample_cbd3: made by factc 1.0.0 function.
   Arrays are aligned by their elements, lie outside the stack below the caller, and no two that are not const overlap.
   For an observer of profile 1: neither the instructions that it executes, nor the addresses of its loads and stores,
   nor the operands of its divisions depend on secret arguments. Nothing is proved of time. */
#ifndef FACT_mlkem_sample_cbd3_H
#define FACT_mlkem_sample_cbd3_H
#include <stdbool.h>
#include <stdint.h>
#define mlkem_sample_cbd3_STACK_BYTES 752
#ifdef __cplusplus
extern "C" {
#endif
void mlkem_sample_cbd3(
    const uint8_t bytes[192] /* secret */,
    uint16_t f[256] /* secret */);
#ifdef __cplusplus
}
#endif
#endif
