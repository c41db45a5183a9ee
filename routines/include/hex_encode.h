/* hex_encode: made by factc 1.0.0 function.
   Arrays are aligned by their elements, lie outside the stack below the caller, and no two that are not const overlap.
   For an observer of profile 1: neither the instructions that it executes, nor the addresses of its loads and stores,
   nor the operands of its divisions depend on secret arguments. Nothing is proved of time. */
#ifndef FACT_hex_encode_H
#define FACT_hex_encode_H
#include <stdbool.h>
#include <stdint.h>
#define hex_encode_STACK_BYTES 144
#ifdef __cplusplus
extern "C" {
#endif
void hex_encode(
    const uint8_t bytes[32] /* secret */,
    uint8_t text[64] /* secret */);
#ifdef __cplusplus
}
#endif
#endif
