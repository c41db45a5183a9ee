/* Keys, agreement and signatures with P-256 (SP 800-186, FIPS 186-5, SP 800-56A) in C around routines of the library:
   p256_scalar_multiply, p256_sign, p256_verify_scalars, p256_point_add, p256_from_bytes, p256_multiply, p256_invert, p256_to_bytes,
   hmac_sha256, copy_if_32 and less_32.

   Numbers have 32 bytes, the highest first; a point is X, then Y, and a signature r, then s. Keys, digests and what is agreed upon are
   secret. Whether something is accepted is public, and so is all that is verified. */
#ifndef HEPURITA_ECDSA_P256_H
#define HEPURITA_ECDSA_P256_H
#include <stdbool.h>
#include <stdint.h>
#ifdef __cplusplus
extern "C" {
#endif

/* The public key of a key; false where the key is 0 or the order. */
bool p256_public_key(const uint8_t key[32], uint8_t public_key[64]);

/* The secret of a key and the other's public key: its X. False where that is not a point on the curve, or nothing is agreed upon. */
bool p256_agree(const uint8_t key[32], const uint8_t public_key[64], uint8_t shared[32]);

/* Signs a digest of SHA-256, or the first 32 bytes of a longer one, with the nonce of RFC 6979 and HMAC-SHA-256. False where the key is
   not from 1 to the order less 1, and then the signature is zeros. */
bool ecdsa_p256_sign(const uint8_t key[32], const uint8_t digest[32], uint8_t signature[64]);

/* Whether a signature of a digest is that of a public key's owner. */
bool ecdsa_p256_verify(const uint8_t public_key[64], const uint8_t digest[32], const uint8_t signature[64]);

#ifdef __cplusplus
}
#endif
#endif
