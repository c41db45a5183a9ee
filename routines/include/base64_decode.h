/* base64_decode: made by factc 1.0.0 function.
   Arrays are aligned by their elements, lie outside the stack below the caller, and no two that are not const overlap.
   For an observer of profile 1: neither the instructions that it executes, nor the addresses of its loads and stores,
   nor the operands of its divisions depend on secret arguments. Nothing is proved of time. */
#ifndef FACT_base64_decode_H
#define FACT_base64_decode_H
#include <stdbool.h>
#include <stdint.h>
#define base64_decode_STACK_BYTES 176
#ifdef __cplusplus
extern "C" {
#endif
uint8_t /* secret */ base64_decode(
    const uint8_t text[64] /* secret */,
    uint32_t length /* public */,
    uint8_t bytes[48] /* secret */);
#ifdef __cplusplus
}
#endif
#endif
