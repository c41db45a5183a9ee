/* AES-GCM (NIST SP 800-38D) with a nonce of 12 bytes and a tag of 16, of texts and associated data of any length:

       struct gcm gcm;
       gcm_init(&gcm, &gcm_128, key);           once for a key; gcm_256 for one of 32 bytes
       gcm_seal(&gcm, nonce, data, text, count, tag);
       if (gcm_open(&gcm, nonce, data, text, count, tag)) ..
       gcm_wipe(&gcm);

   Link gcm.c with the routines ghash_blocks, ghash_block_products and equal_16, gcm_128.c with aes128_expand, aes128_encrypt_2 and
   aes128_ctr, gcm_256.c with those of AES-256. Key, text and associated data are secret; nonces, all lengths, and whether a tag is
   right, are public. Never seal two texts with the same key and nonce. */
#ifndef HEPURITA_GCM_H
#define HEPURITA_GCM_H
#include <stdbool.h>
#include <stdint.h>
#ifdef __cplusplus
extern "C" {
#endif

/* AES with keys of one length. */
struct gcm_kind {
    void (*expand)(const uint8_t *key, uint32_t *keys);
    void (*encrypt_2)(const uint32_t *keys, uint8_t *blocks);
    void (*ctr)(const uint32_t *keys, uint8_t *counter, uint8_t *data, uint32_t length);
};

extern const struct gcm_kind gcm_128, gcm_256;

struct gcm {
    const struct gcm_kind *kind;
    uint32_t keys[120];
    uint8_t hash_key[16];
};

struct gcm_data {
    const uint8_t *bytes;
    uint32_t count;
};

void gcm_init(struct gcm *gcm, const struct gcm_kind *kind, const uint8_t *key);

/* Encrypts in place, and makes the tag. */
void gcm_seal(const struct gcm *gcm, const uint8_t nonce[12], struct gcm_data data, uint8_t *text, uint32_t count, uint8_t tag[16]);

/* Decrypts in place where the tag is right, and says whether it is. */
bool gcm_open(const struct gcm *gcm, const uint8_t nonce[12], struct gcm_data data, uint8_t *text, uint32_t count, const uint8_t tag[16]);

void gcm_wipe(struct gcm *gcm);

#ifdef __cplusplus
}
#endif
#endif
