/* AES-CCM (RFC 3610, NIST SP 800-38C) in C around routines of the library: aes128_expand and aes128_encrypt_2, or those of AES-256
   (aes_key.h), and equal_16. Key and text are secret; nonce, associated data and all counts are public. A nonce is used once with a
   key. */
#ifndef HEPURITA_AES_CCM_H
#define HEPURITA_AES_CCM_H
#include <stdbool.h>
#include <stdint.h>
#include "aes_key.h"
#ifdef __cplusplus
extern "C" {
#endif

/* A nonce of 7 to 13 bytes, and how many bytes a tag has: an even number from 4 to 16. With 13 bytes a text has fewer than 65,536, and
   with 12 fewer than 2^24. */
struct ccm_nonce {
    const uint8_t *bytes;
    uint32_t count;
    uint32_t tag_count;
};

/* What is authenticated and not encrypted. */
struct ccm_data {
    const uint8_t *bytes;
    uint32_t count;
};

/* Encrypts in place, and makes the tag. */
void aes_ccm_seal(const uint8_t key[AES_KEY_BYTES], const struct ccm_nonce *nonce, struct ccm_data data, uint8_t *text,
    uint32_t count, uint8_t *tag);

/* Decrypts in place, and says whether the tag is right; what is decrypted may not be used where it is not, and is still there. */
bool aes_ccm_check(const uint8_t key[AES_KEY_BYTES], const struct ccm_nonce *nonce, struct ccm_data data, uint8_t *text,
    uint32_t count, const uint8_t *tag);

/* Decrypts in place, and says whether the tag is right; where it is not, the text becomes zeros. */
bool aes_ccm_open(const uint8_t key[AES_KEY_BYTES], const struct ccm_nonce *nonce, struct ccm_data data, uint8_t *text,
    uint32_t count, const uint8_t *tag);

#ifdef __cplusplus
}
#endif
#endif
