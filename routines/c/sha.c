/* What sha.h says, around the routine of one block of the kind. */
#include "sha.h"

#include "message.h"

void sha_init(struct sha *hash, const struct sha_kind *kind) {
    hash->kind = kind;
    hash->count = 0;
    copied_words(hash->state, kind->state, kind->words);
}

/* How many bytes of the block there are. The sizes of blocks are powers of two. */
static uint32_t used(const struct sha *hash) {
    return (uint32_t)hash->count & (hash->kind->block_bytes - 1);
}

void sha_update(struct sha *hash, const uint8_t *bytes, uint32_t count) {
    uint32_t size = hash->kind->block_bytes, before = used(hash), room = size - before;
    hash->count += count;
    if (before > 0 && count >= room) {
        copied(hash->block + before, bytes, room);
        hash->kind->take(hash->state, hash->block);
        bytes += room;
        count -= room;
        before = 0;
    }
    /* whole blocks are taken from where they are */
    for (; count >= size; count -= size, bytes += size)
        hash->kind->take(hash->state, bytes);
    copied(hash->block + before, bytes, count);
}

/* A 1 behind the message, zeros, and at the end of the last block how many bits there were. Their number takes an eighth of it. */
static void pad(struct sha *hash) {
    uint32_t size = hash->kind->block_bytes, before = used(hash);
    hash->block[before++] = 0x80;
    if (before > size - size / 8) {
        filled(hash->block + before, 0, size - before);
        hash->kind->take(hash->state, hash->block);
        before = 0;
    }
    filled(hash->block + before, 0, size - before);
    highest_first(hash->block + size - 8, (uint32_t)(hash->count >> 29));
    highest_first(hash->block + size - 4, (uint32_t)hash->count << 3);
    if (size == 128)
        hash->block[size - 9] = (uint8_t)(hash->count >> 61);
    hash->kind->take(hash->state, hash->block);
}

void sha_finish(struct sha *hash, uint8_t *digest) {
    pad(hash);
    for (uint32_t at = 0; at < hash->kind->digest_bytes; at += 4)
        highest_first(digest + at, hash->state[at / 4]);
    wiped(hash->state, 4 * hash->kind->words);
    wiped(hash->block, hash->kind->block_bytes);
}
