/* select_8: made by factc 1.0.0 function.
   Arrays are aligned by their elements, lie outside the stack below the caller, and no two that are not const overlap.
   For an observer of profile 1: neither the instructions that it executes, nor the addresses of its loads and stores,
   nor the operands of its divisions depend on secret arguments. Nothing is proved of time. */
#ifndef FACT_select_8_H
#define FACT_select_8_H
#include <stdbool.h>
#include <stdint.h>
#define select_8_STACK_BYTES 48
#ifdef __cplusplus
extern "C" {
#endif
uint32_t /* secret */ select_8(
    uint32_t place /* secret */,
    const uint32_t words[8] /* secret */);
#ifdef __cplusplus
}
#endif
#endif
