/* hchacha20: made by factc 1.0.0 function.
   Arrays are aligned by their elements, lie outside the stack below the caller, and no two that are not const overlap.
   For an observer of profile 1: neither the instructions that it executes, nor the addresses of its loads and stores,
   nor the operands of its divisions depend on secret arguments. Nothing is proved of time. */
#ifndef FACT_hchacha20_H
#define FACT_hchacha20_H
#include <stdbool.h>
#include <stdint.h>
#define hchacha20_STACK_BYTES 144
#ifdef __cplusplus
extern "C" {
#endif
void hchacha20(
    const uint8_t key[32] /* secret */,
    const uint8_t nonce[16] /* public */,
    uint8_t derived[32] /* secret */);
#ifdef __cplusplus
}
#endif
#endif
