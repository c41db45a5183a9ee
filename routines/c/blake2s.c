/* What blake2s.h says, around blake2s_block. */
#include "blake2s.h"

#include "blake2s_block.h"
#include "message.h"

static const uint32_t first_state[8] = {0x6a09e667, 0xbb67ae85, 0x3c6ef372, 0xa54ff53a, 0x510e527f, 0x9b05688c, 0x1f83d9ab, 0x5be0cd19};

static uint32_t at_most(uint32_t count, uint32_t most) {
    return count < most ? count : most;
}

/* Takes a block, of which so many bytes are the message's. */
static void take(struct blake2s *hash, const uint8_t *block, uint32_t count, bool last) {
    hash->count[0] += count;
    hash->count[1] += hash->count[0] < count;
    blake2s_block(hash->state, block, hash->count, last);
}

void blake2s_init(struct blake2s *hash, uint32_t digest_count, const uint8_t *key, uint32_t key_count) {
    uint32_t keyed = at_most(key_count, 32);
    hash->digest_bytes = at_most(digest_count, 32);
    copied_words(hash->state, first_state, 8);
    hash->state[0] ^= 0x01010000 ^ keyed << 8 ^ hash->digest_bytes;
    hash->count[0] = hash->count[1] = 0;
    filled(hash->block, 0, 64);
    copied(hash->block, key, keyed);
    /* a key is a block of its own */
    hash->used = keyed > 0 ? 64 : 0;
}

void blake2s_update(struct blake2s *hash, const uint8_t *bytes, uint32_t count) {
    uint32_t room = 64 - hash->used;
    if (hash->used > 0 && count > room) {
        copied(hash->block + hash->used, bytes, room);
        take(hash, hash->block, 64, false);
        bytes += room;
        count -= room;
        hash->used = 0;
    }
    /* whole blocks but the last are taken from where they are */
    for (; count > 64; count -= 64, bytes += 64)
        take(hash, bytes, 64, false);
    copied(hash->block + hash->used, bytes, count);
    hash->used += count;
}

void blake2s_finish(struct blake2s *hash, uint8_t *digest) {
    uint8_t whole[32];
    filled(hash->block + hash->used, 0, 64 - hash->used);
    take(hash, hash->block, hash->used, true);
    for (uint32_t at = 0; at < 8; at++)
        lowest_first(whole + 4 * at, hash->state[at]);
    copied(digest, whole, hash->digest_bytes);
    wiped(whole, sizeof whole);
    wiped(hash, sizeof *hash);
}
