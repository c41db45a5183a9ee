/* hotp_digits: made by factc 1.0.0 function.
   Arrays are aligned by their elements, lie outside the stack below the caller, and no two that are not const overlap.
   For an observer of profile 1: neither the instructions that it executes, nor the addresses of its loads and stores,
   nor the operands of its divisions depend on secret arguments. Nothing is proved of time. */
#ifndef FACT_hotp_digits_H
#define FACT_hotp_digits_H
#include <stdbool.h>
#include <stdint.h>
#define hotp_digits_STACK_BYTES 32
#ifdef __cplusplus
extern "C" {
#endif
uint32_t /* secret */ hotp_digits(
    const uint8_t tag[20] /* secret */);
#ifdef __cplusplus
}
#endif
#endif
