/* HKDF (RFC 5869) with SHA-256, around routines/c/hmac.h. Salt, key material, info and what is derived are secret, and how many bytes
   each has is public. */
#ifndef HKDF_H
#define HKDF_H

#include <stdint.h>

#define HKDF_BYTES 32

struct hkdf_input {
    const uint8_t *bytes;
    uint32_t count;
};

/* The key that others are derived from. */
void hkdf_extract(struct hkdf_input salt, struct hkdf_input material, uint8_t key[HKDF_BYTES]);

/* Up to 255 times 32 bytes, for one use that `info` names. */
void hkdf_expand(const uint8_t key[HKDF_BYTES], struct hkdf_input info, uint8_t *derived, uint32_t count);

#endif
