/* crc32: made by factc 1.0.0 function.
   Arrays are aligned by their elements, lie outside the stack below the caller, and no two that are not const overlap.
   For an observer of profile 1: neither the instructions that it executes, nor the addresses of its loads and stores,
   nor the operands of its divisions depend on secret arguments. Nothing is proved of time. */
#ifndef FACT_crc32_H
#define FACT_crc32_H
#include <stdbool.h>
#include <stdint.h>
#define crc32_STACK_BYTES 96
#ifdef __cplusplus
extern "C" {
#endif
uint32_t /* secret */ crc32(
    uint32_t before /* secret */,
    const uint8_t bytes[64] /* secret */,
    uint32_t length /* public */);
#ifdef __cplusplus
}
#endif
#endif
