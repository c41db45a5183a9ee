/* sha3_256_short: made by factc 1.0.0 function.
   Arrays are aligned by their elements, lie outside the stack below the caller, and no two that are not const overlap.
   For an observer of profile 1: neither the instructions that it executes, nor the addresses of its loads and stores,
   nor the operands of its divisions depend on secret arguments. Nothing is proved of time. */
#ifndef FACT_sha3_256_short_H
#define FACT_sha3_256_short_H
#include <stdbool.h>
#include <stdint.h>
#define sha3_256_short_STACK_BYTES 992
#ifdef __cplusplus
extern "C" {
#endif
void sha3_256_short(
    const uint8_t message[135] /* secret */,
    uint32_t length /* public */,
    uint8_t digest[32] /* secret */);
#ifdef __cplusplus
}
#endif
#endif
