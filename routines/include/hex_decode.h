/* hex_decode: made by factc 1.0.0 function.
   Arrays are aligned by their elements, lie outside the stack below the caller, and no two that are not const overlap.
   For an observer of profile 1: neither the instructions that it executes, nor the addresses of its loads and stores,
   nor the operands of its divisions depend on secret arguments. Nothing is proved of time. */
#ifndef FACT_hex_decode_H
#define FACT_hex_decode_H
#include <stdbool.h>
#include <stdint.h>
#define hex_decode_STACK_BYTES 128
#ifdef __cplusplus
extern "C" {
#endif
bool /* secret */ hex_decode(
    const uint8_t text[64] /* secret */,
    uint8_t bytes[32] /* secret */);
#ifdef __cplusplus
}
#endif
#endif
