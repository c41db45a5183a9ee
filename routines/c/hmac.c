/* What hmac.h says. */
#include "hmac.h"

#include "message.h"

/* Begins a hash with a block: the key, exclusive-or a byte in each place. */
static void begin(struct sha *hash, const struct sha_kind *kind, const uint8_t *key, uint8_t byte) {
    uint8_t block[SHA_BLOCK_BYTES];
    filled(block, byte, kind->block_bytes);
    added(block, key, kind->block_bytes);
    sha_init(hash, kind);
    sha_update(hash, block, kind->block_bytes);
    wiped(block, sizeof block);
}

void hmac_init(struct hmac *mac, const struct sha_kind *kind, const uint8_t *key, uint32_t count) {
    uint8_t whole[SHA_BLOCK_BYTES];
    filled(whole, 0, sizeof whole);
    if (count > kind->block_bytes) {
        sha_init(&mac->inner, kind);
        sha_update(&mac->inner, key, count);
        sha_finish(&mac->inner, whole);
    } else {
        copied(whole, key, count);
    }
    begin(&mac->inner, kind, whole, 0x36);
    begin(&mac->outer, kind, whole, 0x5c);
    wiped(whole, sizeof whole);
}

void hmac_update(struct hmac *mac, const uint8_t *bytes, uint32_t count) {
    sha_update(&mac->inner, bytes, count);
}

void hmac_finish(struct hmac *mac, uint8_t *tag) {
    uint8_t digest[SHA_DIGEST_BYTES];
    uint32_t count = mac->inner.kind->digest_bytes;
    sha_finish(&mac->inner, digest);
    sha_update(&mac->outer, digest, count);
    sha_finish(&mac->outer, tag);
    wiped(digest, sizeof digest);
}
