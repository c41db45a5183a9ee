/* Signatures with Ed25519 (RFC 8032, section 5.1) in C around sha, sha_512 and sha512_block, and the routines ed25519_scalar_multiply,
   ed25519_reduce, ed25519_multiply_add, ed25519_decode, ed25519_point_add, f25519_multiply, f25519_subtract, f25519_invert and equal_32.

   The seed is the private key of RFC 8032. Seeds and messages are secret; how many bytes a message has is public, and so is all that
   is verified. */
#ifndef HEPURITA_ED25519_H
#define HEPURITA_ED25519_H
#include <stdbool.h>
#include <stdint.h>
#ifdef __cplusplus
extern "C" {
#endif

void ed25519_public_key(const uint8_t seed[32], uint8_t public_key[32]);

/* Signs a message. The public key is that of the seed. */
void ed25519_sign(const uint8_t seed[32], const uint8_t public_key[32], const uint8_t *message, uint32_t count, uint8_t signature[64]);

/* Whether a signature of a message is that of a public key's owner, by the equation without the cofactor. */
bool ed25519_verify(const uint8_t public_key[32], const uint8_t *message, uint32_t count, const uint8_t signature[64]);

#ifdef __cplusplus
}
#endif
#endif
