/* p256_to_bytes: made by factc 1.0.0 function.
   Arrays are aligned by their elements, lie outside the stack below the caller, and no two that are not const overlap.
   For an observer of profile 1: neither the instructions that it executes, nor the addresses of its loads and stores,
   nor the operands of its divisions depend on secret arguments. Nothing is proved of time. */
#ifndef FACT_p256_to_bytes_H
#define FACT_p256_to_bytes_H
#include <stdbool.h>
#include <stdint.h>
#define p256_to_bytes_STACK_BYTES 240
#ifdef __cplusplus
extern "C" {
#endif
void p256_to_bytes(
    const uint32_t number[8] /* secret */,
    uint8_t bytes[32] /* secret */);
#ifdef __cplusplus
}
#endif
#endif
