/* tls_mac_check_20: made by factc 1.0.0 function.
   Arrays are aligned by their elements, lie outside the stack below the caller, and no two that are not const overlap.
   For an observer of profile 1: neither the instructions that it executes, nor the addresses of its loads and stores,
   nor the operands of its divisions depend on secret arguments. Nothing is proved of time. */
#ifndef FACT_tls_mac_check_20_H
#define FACT_tls_mac_check_20_H
#include <stdbool.h>
#include <stdint.h>
#define tls_mac_check_20_STACK_BYTES 416
#ifdef __cplusplus
extern "C" {
#endif
bool /* secret */ tls_mac_check_20(
    const uint8_t ending[280] /* secret */,
    uint32_t padding /* secret */,
    const uint8_t mac[20] /* secret */);
#ifdef __cplusplus
}
#endif
#endif
