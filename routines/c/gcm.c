/* What gcm.h says, around AES with ready keys and GHASH of 256 bytes at once. */
#include "gcm.h"

#include "equal_16.h"
#include "ghash_block_products.h"
#include "ghash_blocks.h"
#include "message.h"

/* How many bytes the routines take at once. */
#define PART 256

/* The first counter block, which belongs to the tag: the nonce and the number 1. */
static void first_counter(uint8_t counter[16], const uint8_t nonce[12]) {
    copied(counter, nonce, 12);
    highest_first(counter + 12, 1);
}

void gcm_init(struct gcm *gcm, const struct gcm_kind *kind, const uint8_t *key) {
    uint8_t blocks[32];
    gcm->kind = kind;
    kind->expand(key, gcm->keys);
    filled(blocks, 0, 32);
    kind->encrypt_2(gcm->keys, blocks);
    copied(gcm->hash_key, blocks, 16);
    wiped(blocks, sizeof blocks);
}

/* Whole parts are encrypted where they are. The rest is copied, since the routine takes an array of a part, whatever is behind. */
static void encrypt(const struct gcm *gcm, const uint8_t nonce[12], uint8_t *text, uint32_t count) {
    uint8_t counter[16], part[PART];
    first_counter(counter, nonce);
    counter[15] = 2;
    for (; count >= PART; count -= PART, text += PART)
        gcm->kind->ctr(gcm->keys, counter, text, PART);
    if (count > 0) {
        copied(part, text, count);
        gcm->kind->ctr(gcm->keys, counter, part, count);
        copied(text, part, count);
        wiped(part, count);
    }
}

/* Takes bytes into the sum, with zeros behind the last one up to a whole block. */
static void add(const struct gcm *gcm, uint8_t sum[16], const uint8_t *bytes, uint32_t count) {
    uint8_t part[PART];
    for (; count >= PART; count -= PART, bytes += PART)
        ghash_blocks(gcm->hash_key, bytes, PART, sum);
    if (count > 0) {
        copied(part, bytes, count);
        ghash_blocks(gcm->hash_key, part, count, sum);
        wiped(part, count);
    }
}

/* How many bits so many bytes have, in eight bytes. */
static void bits_of(uint8_t bytes[8], uint32_t count) {
    highest_first(bytes, count >> 29);
    highest_first(bytes + 4, count << 3);
}

static void make_tag(
    const struct gcm *gcm, const uint8_t nonce[12], struct gcm_data data, const uint8_t *text, uint32_t count, uint8_t tag[16]
) {
    uint8_t lengths[16], blocks[32];
    filled(tag, 0, 16);
    add(gcm, tag, data.bytes, data.count);
    add(gcm, tag, text, count);
    bits_of(lengths, data.count);
    bits_of(lengths + 8, count);
    ghash_block_products(gcm->hash_key, lengths, tag);
    filled(blocks, 0, 32);
    first_counter(blocks, nonce);
    gcm->kind->encrypt_2(gcm->keys, blocks);
    added(tag, blocks, 16);
    wiped(blocks, sizeof blocks);
}

void gcm_seal(const struct gcm *gcm, const uint8_t nonce[12], struct gcm_data data, uint8_t *text, uint32_t count, uint8_t tag[16]) {
    encrypt(gcm, nonce, text, count);
    make_tag(gcm, nonce, data, text, count, tag);
}

bool gcm_open(const struct gcm *gcm, const uint8_t nonce[12], struct gcm_data data, uint8_t *text, uint32_t count, const uint8_t tag[16]) {
    uint8_t wanted[16];
    make_tag(gcm, nonce, data, text, count, wanted);
    /* whether a text is accepted is public: the branch shows no more */
    bool right = equal_16(wanted, tag);
    wiped(wanted, sizeof wanted);
    if (right)
        encrypt(gcm, nonce, text, count);
    return right;
}

void gcm_wipe(struct gcm *gcm) {
    wiped(gcm, sizeof *gcm);
}
