/* Records of TLS 1.2's CBC suites (RFC 5246, section 6.2.3.2): AES-128 or AES-256 (aes_key.h), and HMAC-SHA-256, or HMAC-SHA-1 where
   TLS_MAC_BYTES is defined as 20. In C around routines of the library: aes128_expand, aes128_encrypt_2 and aes128_decrypt_2, or those
   of AES-256, tls_padding, sha_pad_block, copy_if_32, and sha256_block and tls_mac_check_32, or sha1_block and tls_mac_check_20.

   Keys and record are secret, and so is what the padding says, until a record is accepted; its count, its head and its vector are
   public. The hash takes as many blocks as if there were no padding, whatever the padding is. */
#ifndef HEPURITA_TLS_CBC_H
#define HEPURITA_TLS_CBC_H
#include <stdbool.h>
#include <stdint.h>
#include "aes_key.h"
#ifdef __cplusplus
extern "C" {
#endif

#ifndef TLS_MAC_BYTES
#define TLS_MAC_BYTES 32
#endif

/* What the MAC takes before the content's count: sequence number, type and version. */
struct tls_record {
    uint8_t head[11];
    uint8_t vector[16];
};

/* How many bytes the record of so many bytes of content has, with the least padding. */
uint32_t tls_cbc_sealed_count(uint32_t content);

/* Puts MAC and padding behind the content, for which there has to be room, and encrypts all in place: says how many bytes they are. */
uint32_t tls_cbc_seal(const uint8_t key[AES_KEY_BYTES], const uint8_t mac_key[TLS_MAC_BYTES], const struct tls_record *record,
    uint8_t *bytes, uint32_t content);

/* Decrypts a record in place, and says whether padding and MAC are right. `content` is how many bytes of it are content: it may not be
   used where they are not. */
bool tls_cbc_check(const uint8_t key[AES_KEY_BYTES], const uint8_t mac_key[TLS_MAC_BYTES],
    const struct tls_record *record, uint8_t *bytes, uint32_t count, uint32_t *content);

/* The same; where they are not right, the record becomes zeros, and `content` 0. */
bool tls_cbc_open(const uint8_t key[AES_KEY_BYTES], const uint8_t mac_key[TLS_MAC_BYTES],
    const struct tls_record *record, uint8_t *bytes, uint32_t count, uint32_t *content);

#ifdef __cplusplus
}
#endif
#endif
