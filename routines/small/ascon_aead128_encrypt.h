/* ascon_aead128_encrypt: made by factc 1.0.0 function.
   Arrays are aligned by their elements, lie outside the stack below the caller, and no two that are not const overlap.
   For an observer of profile 1: neither the instructions that it executes, nor the addresses of its loads and stores,
   nor the operands of its divisions depend on secret arguments. Nothing is proved of time. */
#ifndef FACT_ascon_aead128_encrypt_H
#define FACT_ascon_aead128_encrypt_H
#include <stdbool.h>
#include <stdint.h>
#define ascon_aead128_encrypt_STACK_BYTES 384
#ifdef __cplusplus
extern "C" {
#endif
void ascon_aead128_encrypt(
    const uint8_t key[16] /* secret */,
    const uint8_t nonce[16] /* secret */,
    const uint8_t associated[64] /* secret */,
    uint32_t associated_length /* public */,
    uint8_t text[64] /* secret */,
    uint32_t length /* public */,
    uint8_t tag[16] /* secret */);
#ifdef __cplusplus
}
#endif
#endif
