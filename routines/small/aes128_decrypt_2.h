/* aes128_decrypt_2: made by factc 1.0.0 function.
   Arrays are aligned by their elements, lie outside the stack below the caller, and no two that are not const overlap.
   For an observer of profile 1: neither the instructions that it executes, nor the addresses of its loads and stores,
   nor the operands of its divisions depend on secret arguments. Nothing is proved of time. */
#ifndef FACT_aes128_decrypt_2_H
#define FACT_aes128_decrypt_2_H
#include <stdbool.h>
#include <stdint.h>
#define aes128_decrypt_2_STACK_BYTES 672
#ifdef __cplusplus
extern "C" {
#endif
void aes128_decrypt_2(
    const uint32_t keys[88] /* secret */,
    uint8_t blocks[32] /* secret */);
#ifdef __cplusplus
}
#endif
#endif
