/* SHA-3 and SHAKE (FIPS 202) of messages of any length, on Keccak's sponge:

       struct sha3 hash;
       sha3_init(&hash, 32);                    SHA3-256: digests of 28, 32, 48 or 64 bytes
       sha3_update(&hash, bytes, count);        as often as there is more
       sha3_finish(&hash, digest);              wipes the struct

       shake_init(&hash, 128);                  SHAKE128, or 256
       sha3_update(&hash, bytes, count);        as often as there is more
       shake_finish(&hash);
       shake_squeeze(&hash, bytes, count);      as often as more is wanted
       sha3_wipe(&hash);

   Link sha3.c with the routine keccak_f1600. Messages and digests are secret, all lengths are public. */
#ifndef HEPURITA_SHA3_H
#define HEPURITA_SHA3_H
#include <stdint.h>
#ifdef __cplusplus
extern "C" {
#endif

struct sha3 {
    uint32_t state[50];
    uint32_t rate; /* bytes of the state that the message changes */
    uint32_t at;   /* which of them is next */
    uint8_t ending;
};

void sha3_init(struct sha3 *hash, uint32_t digest_bytes);
void sha3_update(struct sha3 *hash, const uint8_t *bytes, uint32_t count);
void sha3_finish(struct sha3 *hash, uint8_t *digest);
void sha3_wipe(struct sha3 *hash);

void shake_init(struct sha3 *hash, uint32_t bits);
void shake_finish(struct sha3 *hash);
void shake_squeeze(struct sha3 *hash, uint8_t *bytes, uint32_t count);

#ifdef __cplusplus
}
#endif
#endif
