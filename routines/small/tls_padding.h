/* tls_padding: made by factc 1.0.0 function.
   Arrays are aligned by their elements, lie outside the stack below the caller, and no two that are not const overlap.
   For an observer of profile 1: neither the instructions that it executes, nor the addresses of its loads and stores,
   nor the operands of its divisions depend on secret arguments. Nothing is proved of time. */
#ifndef FACT_tls_padding_H
#define FACT_tls_padding_H
#include <stdbool.h>
#include <stdint.h>
#define tls_padding_STACK_BYTES 288
#ifdef __cplusplus
extern "C" {
#endif
uint32_t /* secret */ tls_padding(
    const uint8_t ending[256] /* secret */,
    uint32_t count /* public */,
    uint32_t mac_bytes /* public */);
#ifdef __cplusplus
}
#endif
#endif
