/* Ascon-AEAD128, Ascon-Hash256 and Ascon-XOF128 (NIST SP 800-232) of messages of any length, in C around the routines ascon_permute and
   equal_16. Keys, messages and digests are secret; nonces, associated data and all counts are public. A nonce is used once with a key.

       struct ascon_hash hash;
       ascon_hash256_init(&hash);                  or ascon_xof128_init
       ascon_update(&hash, bytes, count);          as often as there is more
       ascon_finish(&hash, digest, 32);            any number of bytes of the XOF; it wipes the struct */
#ifndef HEPURITA_ASCON_H
#define HEPURITA_ASCON_H
#include <stdbool.h>
#include <stdint.h>
#ifdef __cplusplus
extern "C" {
#endif

/* What is authenticated and not encrypted. */
struct ascon_data {
    const uint8_t *bytes;
    uint32_t count;
};

/* Encrypts in place, and makes the tag. */
void ascon_seal(const uint8_t key[16], const uint8_t nonce[16], struct ascon_data data, uint8_t *text, uint32_t count, uint8_t tag[16]);

/* Decrypts in place, and says whether the tag is right; what is decrypted may not be used where it is not, and is still there. */
bool ascon_check(const uint8_t key[16], const uint8_t nonce[16], struct ascon_data data, uint8_t *text, uint32_t count,
    const uint8_t tag[16]);

/* Decrypts in place, and says whether the tag is right; where it is not, the text becomes zeros. */
bool ascon_open(const uint8_t key[16], const uint8_t nonce[16], struct ascon_data data, uint8_t *text, uint32_t count,
    const uint8_t tag[16]);

struct ascon_hash {
    uint32_t state[10];
    uint32_t used;
};

void ascon_hash256_init(struct ascon_hash *hash);
void ascon_xof128_init(struct ascon_hash *hash);
void ascon_update(struct ascon_hash *hash, const uint8_t *bytes, uint32_t count);
void ascon_finish(struct ascon_hash *hash, uint8_t *digest, uint32_t count);

#ifdef __cplusplus
}
#endif
#endif
