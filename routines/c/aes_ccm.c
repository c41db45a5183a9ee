#include "aes_ccm.h"

#include "equal_16.h"
#include "message.h"

/* The sum is not encrypted before there is more: then a block of the key stream is encrypted with it. */
struct ccm {
    uint32_t keys[AES_READY_WORDS];
    uint8_t sum[16], stream[16];
};

static void encrypt_both(struct ccm *ccm) {
    uint8_t blocks[32];
    copied(blocks, ccm->sum, 16);
    copied(blocks + 16, ccm->stream, 16);
    aes_encrypt_2(ccm->keys, blocks);
    copied(ccm->sum, blocks, 16);
    copied(ccm->stream, blocks + 16, 16);
    wiped(blocks, sizeof blocks);
}

/* A block with the nonce, the first byte given, and a number in the bytes behind the nonce. */
static void make_block(const struct ccm_nonce *nonce, uint32_t first, uint32_t number, uint8_t block[16]) {
    filled(block, 0, 16);
    block[0] = (uint8_t)first;
    copied(block + 1, nonce->bytes, nonce->count);
    for (uint32_t byte = 0; byte < 4 && byte < 15 - nonce->count; byte++)
        block[15 - byte] = (uint8_t)(number >> 8 * byte);
}

/* Adds associated data behind the `used` bytes of a block, and zeros behind its last byte. */
static void add(struct ccm *ccm, uint8_t block[16], uint32_t used, struct ccm_data data) {
    while (data.count > 0) {
        uint32_t here = data.count < 16 - used ? data.count : 16 - used;
        copied(block + used, data.bytes, here);
        encrypt_both(ccm);
        added(ccm->sum, block, 16);
        filled(block, 0, 16);
        data.bytes += here;
        data.count -= here;
        used = 0;
    }
}

/* The count goes before the associated data, in two bytes or in six. */
static void add_data(struct ccm *ccm, struct ccm_data data) {
    uint8_t block[16];
    filled(block, 0, 16);
    if (data.count < 0xff00) {
        block[0] = (uint8_t)(data.count >> 8);
        block[1] = (uint8_t)data.count;
        add(ccm, block, 2, data);
    } else {
        block[0] = 0xff;
        block[1] = 0xfe;
        highest_first(block + 2, data.count);
        add(ccm, block, 6, data);
    }
}

static void begin(struct ccm *ccm, const uint8_t key[AES_KEY_BYTES], const struct ccm_nonce *nonce, struct ccm_data data,
    uint32_t count) {
    uint32_t first = (data.count > 0 ? 64 : 0) + 4 * (nonce->tag_count - 2) + 14 - nonce->count;
    aes_expand(key, ccm->keys);
    make_block(nonce, first, count, ccm->sum);
    filled(ccm->stream, 0, 16);
    add_data(ccm, data);
}

/* What is added to the sum is the text before it is encrypted, or behind its decryption. */
static void crypt(struct ccm *ccm, const struct ccm_nonce *nonce, uint8_t *text, uint32_t count, bool seals) {
    for (uint32_t at = 0; at < count; at += 16) {
        uint32_t here = count - at < 16 ? count - at : 16;
        make_block(nonce, 14 - nonce->count, at / 16 + 1, ccm->stream);
        encrypt_both(ccm);
        if (seals)
            added(ccm->sum, text + at, here);
        added(text + at, ccm->stream, here);
        if (!seals)
            added(ccm->sum, text + at, here);
    }
}

static void finish(struct ccm *ccm, const struct ccm_nonce *nonce, uint8_t tag[16]) {
    make_block(nonce, 14 - nonce->count, 0, ccm->stream);
    encrypt_both(ccm);
    copied(tag, ccm->sum, 16);
    added(tag, ccm->stream, 16);
    wiped(ccm, sizeof *ccm);
}

void aes_ccm_seal(const uint8_t key[AES_KEY_BYTES], const struct ccm_nonce *nonce, struct ccm_data data, uint8_t *text,
    uint32_t count, uint8_t *tag) {
    struct ccm ccm;
    uint8_t whole[16];
    begin(&ccm, key, nonce, data, count);
    crypt(&ccm, nonce, text, count, true);
    finish(&ccm, nonce, whole);
    copied(tag, whole, nonce->tag_count);
    wiped(whole, sizeof whole);
}

bool aes_ccm_check(const uint8_t key[AES_KEY_BYTES], const struct ccm_nonce *nonce, struct ccm_data data, uint8_t *text,
    uint32_t count, const uint8_t *tag) {
    struct ccm ccm;
    uint8_t wanted[16], given[16];
    begin(&ccm, key, nonce, data, count);
    crypt(&ccm, nonce, text, count, false);
    finish(&ccm, nonce, wanted);
    /* behind a shorter tag both have the same */
    copied(given, wanted, 16);
    copied(given, tag, nonce->tag_count);
    bool right = equal_16(wanted, given);
    wiped(wanted, sizeof wanted);
    wiped(given, sizeof given);
    return right;
}

bool aes_ccm_open(const uint8_t key[AES_KEY_BYTES], const struct ccm_nonce *nonce, struct ccm_data data, uint8_t *text,
    uint32_t count, const uint8_t *tag) {
    bool right = aes_ccm_check(key, nonce, data, text, count, tag);
    /* Whether a message is accepted is public: the branch shows no more. */
    if (!right)
        wiped(text, count);
    return right;
}
