/* siphash24: made by factc 1.0.0 function.
   Arrays are aligned by their elements, lie outside the stack below the caller, and no two that are not const overlap.
   For an observer of profile 1: neither the instructions that it executes, nor the addresses of its loads and stores,
   nor the operands of its divisions depend on secret arguments. Nothing is proved of time. */
#ifndef FACT_siphash24_H
#define FACT_siphash24_H
#include <stdbool.h>
#include <stdint.h>
#define siphash24_STACK_BYTES 176
#ifdef __cplusplus
extern "C" {
#endif
void siphash24(
    const uint8_t key[16] /* secret */,
    const uint8_t message[63] /* secret */,
    uint32_t length /* public */,
    uint8_t tag[8] /* secret */);
#ifdef __cplusplus
}
#endif
#endif
