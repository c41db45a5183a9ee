/* SipHash-2-4 of messages of any length:

       struct siphash hash;
       siphash_init(&hash, key);
       siphash_update(&hash, bytes, count);     as often as there is more
       siphash_finish(&hash, tag);

   Link siphash.c with the routines siphash24_blocks and siphash24_finish. Key, message and tag are secret, lengths are public.
   siphash_finish wipes the struct. */
#ifndef HEPURITA_SIPHASH_H
#define HEPURITA_SIPHASH_H
#include <stdint.h>
#ifdef __cplusplus
extern "C" {
#endif

struct siphash {
    uint32_t state[8];
    uint32_t count;
    uint8_t blocks[64];
};

void siphash_init(struct siphash *hash, const uint8_t key[16]);
void siphash_update(struct siphash *hash, const uint8_t *bytes, uint32_t count);
void siphash_finish(struct siphash *hash, uint8_t tag[8]);

#ifdef __cplusplus
}
#endif
#endif
