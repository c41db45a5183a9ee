/* ChaCha20-Poly1305 (RFC 8439, section 2.8) in C around routines of the library. Lengths, nonce and associated data are public.
   Of a C library it needs memset alone, and that where the compiler calls it for an array that begins as zeros, as clang does, and gcc
   with -Os: ../foreign/mem.c has one. */
#ifndef CHACHA20_POLY1305_H
#define CHACHA20_POLY1305_H

#include <stdbool.h>
#include <stdint.h>

struct associated {
    const uint8_t *bytes;
    uint32_t count;
};

/* Encrypts in place, and makes the tag. */
void seal(const uint8_t key[32], const uint8_t nonce[12], struct associated data, uint8_t *text, uint32_t count, uint8_t tag[16]);

/* Decrypts in place where the tag is right, and says whether it is. */
bool open_sealed(const uint8_t key[32], const uint8_t nonce[12], struct associated data, uint8_t *text, uint32_t count, const uint8_t tag[16]);

#endif
