/* pkcs1_unpad: made by factc 1.0.0 function.
   Arrays are aligned by their elements, lie outside the stack below the caller, and no two that are not const overlap.
   For an observer of profile 1: neither the instructions that it executes, nor the addresses of its loads and stores,
   nor the operands of its divisions depend on secret arguments. Nothing is proved of time. */
#ifndef FACT_pkcs1_unpad_H
#define FACT_pkcs1_unpad_H
#include <stdbool.h>
#include <stdint.h>
#define pkcs1_unpad_STACK_BYTES 272
#ifdef __cplusplus
extern "C" {
#endif
uint8_t /* secret */ pkcs1_unpad(
    const uint8_t block[64] /* secret */,
    uint8_t message[53] /* secret */);
#ifdef __cplusplus
}
#endif
#endif
