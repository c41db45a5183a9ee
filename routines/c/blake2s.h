/* BLAKE2s (RFC 7693) of messages of any length, with a digest of 1 to 32 bytes, and with a key of up to 32 bytes or none (0 bytes):

       struct blake2s hash;
       blake2s_init(&hash, digest_count, key, key_count);
       blake2s_update(&hash, bytes, count);     as often as there is more
       blake2s_finish(&hash, digest);

   Link blake2s.c with the routine blake2s_block. Keys and messages are secret, all lengths are public; a digest or a key that is too
   long counts as 32 bytes. blake2s_finish wipes the struct. */
#ifndef HEPURITA_BLAKE2S_H
#define HEPURITA_BLAKE2S_H
#include <stdint.h>
#ifdef __cplusplus
extern "C" {
#endif

struct blake2s {
    uint32_t state[8];
    uint32_t count[2]; /* bytes taken into the state: lower word, upper word */
    uint32_t used;     /* bytes of the block, which stays until it is known whether it is the last */
    uint32_t digest_bytes;
    uint8_t block[64];
};

void blake2s_init(struct blake2s *hash, uint32_t digest_count, const uint8_t *key, uint32_t key_count);
void blake2s_update(struct blake2s *hash, const uint8_t *bytes, uint32_t count);
void blake2s_finish(struct blake2s *hash, uint8_t *digest);

#ifdef __cplusplus
}
#endif
#endif
