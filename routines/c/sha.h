/* SHA-1, SHA-224, SHA-256, SHA-384 and SHA-512 (FIPS 180-4) of messages of any length, given part by part:

       struct sha hash;
       sha_init(&hash, &sha_256);
       sha_update(&hash, bytes, count);     as often as there is more
       sha_finish(&hash, digest);

   Link sha.c with the file of the kind and the routine that it calls: sha_1.c with sha1_block, sha_256.c with sha256_block,
   sha_512.c with sha512_block. Messages are secret, their lengths and the lengths of the parts are public. sha_finish wipes what
   the struct has of it. A part that begins at a multiple of 4, where no bytes are left from the part before, takes the fewest
   steps. */
#ifndef HEPURITA_SHA_H
#define HEPURITA_SHA_H
#include <stdint.h>
#ifdef __cplusplus
extern "C" {
#endif

/* One of them: its routine, the bytes of its blocks and of its digest, and the words that its state begins with. */
struct sha_kind {
    void (*take)(uint32_t *state, const uint8_t *block);
    uint32_t block_bytes;
    uint32_t digest_bytes;
    uint32_t words;
    uint32_t state[16];
};

extern const struct sha_kind sha_1, sha_224, sha_256, sha_384, sha_512;

/* The longest digest and block of them. */
#define SHA_DIGEST_BYTES 64
#define SHA_BLOCK_BYTES 128

struct sha {
    const struct sha_kind *kind;
    uint32_t state[16];
    uint64_t count;
    uint8_t block[SHA_BLOCK_BYTES];
};

void sha_init(struct sha *hash, const struct sha_kind *kind);
void sha_update(struct sha *hash, const uint8_t *bytes, uint32_t count);
void sha_finish(struct sha *hash, uint8_t *digest);

#ifdef __cplusplus
}
#endif
#endif
