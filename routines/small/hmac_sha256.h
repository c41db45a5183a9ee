/* hmac_sha256: made by factc 1.0.0 function.
   Arrays are aligned by their elements, lie outside the stack below the caller, and no two that are not const overlap.
   For an observer of profile 1: neither the instructions that it executes, nor the addresses of its loads and stores,
   nor the operands of its divisions depend on secret arguments. Nothing is proved of time. */
#ifndef FACT_hmac_sha256_H
#define FACT_hmac_sha256_H
#include <stdbool.h>
#include <stdint.h>
#define hmac_sha256_STACK_BYTES 960
#ifdef __cplusplus
extern "C" {
#endif
void hmac_sha256(
    const uint8_t key[64] /* secret */,
    uint32_t key_length /* public */,
    const uint8_t message[119] /* secret */,
    uint32_t length /* public */,
    uint8_t tag[32] /* secret */);
#ifdef __cplusplus
}
#endif
#endif
