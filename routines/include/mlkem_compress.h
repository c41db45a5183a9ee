/* mlkem_compress: made by factc 1.0.0 function.
   Arrays are aligned by their elements, lie outside the stack below the caller, and no two that are not const overlap.
   For an observer of profile 1: neither the instructions that it executes, nor the addresses of its loads and stores,
   nor the operands of its divisions depend on secret arguments. Nothing is proved of time. */
#ifndef FACT_mlkem_compress_H
#define FACT_mlkem_compress_H
#include <stdbool.h>
#include <stdint.h>
#define mlkem_compress_STACK_BYTES 544
#ifdef __cplusplus
extern "C" {
#endif
void mlkem_compress(
    uint16_t f[256] /* secret */,
    uint32_t d /* public */);
#ifdef __cplusplus
}
#endif
#endif
