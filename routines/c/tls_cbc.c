#include "tls_cbc.h"

#include "copy_if_32.h"
#include "message.h"
#include "sha_pad_block.h"
#include "tls_padding.h"

#if TLS_MAC_BYTES == 32
#include "sha256_block.h"
#include "tls_mac_check_32.h"
#define hash_block sha256_block
#define mac_check tls_mac_check_32
#define ENDING_BYTES 288
#define BEGINNING {0x6a09e667, 0xbb67ae85, 0x3c6ef372, 0xa54ff53a, 0x510e527f, 0x9b05688c, 0x1f83d9ab, 0x5be0cd19}
#elif TLS_MAC_BYTES == 20
#include "sha1_block.h"
#include "tls_mac_check_20.h"
#define hash_block sha1_block
#define mac_check tls_mac_check_20
#define ENDING_BYTES 280
#define BEGINNING {0x67452301, 0xefcdab89, 0x98badcfe, 0x10325476, 0xc3d2e1f0}
#else
#error "TLS_MAC_BYTES is 20 or 32"
#endif

/* Eight words, so that one routine copies the states of both hashes. */
struct hash {
    uint32_t words[8];
};

static const uint32_t beginning[8] = BEGINNING;

/* A block of the key, each byte of which is changed. */
static void begin(struct hash *hash, const uint8_t mac_key[TLS_MAC_BYTES], uint8_t change) {
    uint8_t block[64];
    for (uint32_t at = 0; at < 64; at++)
        block[at] = (uint8_t)((at < TLS_MAC_BYTES ? mac_key[at] : 0) ^ change);
    copied_words(hash->words, beginning, 8);
    hash_block(hash->words, block);
    wiped(block, sizeof block);
}

/* The digest behind the key's block: of 13 bytes and the record's first ones, `length` in all, which is secret, within blocks for
   the public `most`. */
static void inner_hash(const uint8_t mac_key[TLS_MAC_BYTES], const uint8_t first[13], const uint8_t *bytes,
        uint32_t length, uint32_t most, uint8_t digest[32]) {
    struct hash hash, kept;
    filled((uint8_t *)kept.words, 0, 32);
    begin(&hash, mac_key, 0x36);
    for (uint32_t number = 1; number <= (64 + most + 8) / 64; number++) {
        uint8_t block[64];
        for (uint32_t at = 0; at < 64; at++) {
            uint32_t place = 64 * (number - 1) + at;
            block[at] = place < 13 ? first[place] : place < most ? bytes[place - 13] : 0;
        }
        bool last = sha_pad_block(block, number, 64 + length);
        hash_block(hash.words, block);
        copy_if_32(last, (const uint8_t *)hash.words, (uint8_t *)kept.words);
        wiped(block, sizeof block);
    }
    for (uint32_t at = 0; at < 8; at++)
        highest_first(digest + 4 * at, kept.words[at]);
    wiped(&hash, sizeof hash);
    wiped(&kept, sizeof kept);
}

static void make_mac(const uint8_t mac_key[TLS_MAC_BYTES], const uint8_t first[13], const uint8_t *bytes,
        uint32_t length, uint32_t most, uint8_t mac[32]) {
    struct hash hash;
    uint8_t block[64];
    filled(block, 0, 64);
    inner_hash(mac_key, first, bytes, length, most, block);
    sha_pad_block(block, 1, 64 + TLS_MAC_BYTES);
    begin(&hash, mac_key, 0x5c);
    hash_block(hash.words, block);
    for (uint32_t at = 0; at < 8; at++)
        highest_first(mac + 4 * at, hash.words[at]);
    wiped(&hash, sizeof hash);
    wiped(block, sizeof block);
}

/* Two blocks at once; the last one may be alone. */
static void decrypt(const uint8_t key[AES_KEY_BYTES], const uint8_t vector[16], uint8_t *bytes, uint32_t count) {
    uint32_t keys[AES_READY_WORDS];
    uint8_t blocks[32], before[16];
    aes_expand(key, keys);
    copied(before, vector, 16);
    filled(blocks, 0, 32);
    for (uint32_t at = 0; at < count; at += 32) {
        uint32_t here = count - at < 32 ? count - at : 32;
        copied(blocks, bytes + at, here);
        aes_decrypt_2(keys, blocks);
        added(blocks, before, 16);
        added(blocks + 16, bytes + at, here - 16);
        copied(before, bytes + at + here - 16, 16);
        copied(bytes + at, blocks, here);
    }
    wiped(keys, sizeof keys);
    wiped(blocks, sizeof blocks);
}

/* A block needs the one before, so one of two blocks goes to waste. */
static void encrypt(const uint8_t key[AES_KEY_BYTES], const uint8_t vector[16], uint8_t *bytes, uint32_t count) {
    uint32_t keys[AES_READY_WORDS];
    uint8_t blocks[32];
    aes_expand(key, keys);
    filled(blocks, 0, 32);
    copied(blocks, vector, 16);
    for (uint32_t at = 0; at < count; at += 16) {
        added(blocks, bytes + at, 16);
        aes_encrypt_2(keys, blocks);
        copied(bytes + at, blocks, 16);
    }
    wiped(keys, sizeof keys);
}

/* What the MAC takes before the content. */
static void make_first(const struct tls_record *record, uint32_t length, uint8_t first[13]) {
    copied(first, record->head, 11);
    first[11] = (uint8_t)(length >> 8);
    first[12] = (uint8_t)length;
}

uint32_t tls_cbc_sealed_count(uint32_t content) {
    return (content + TLS_MAC_BYTES) / 16 * 16 + 16;
}

uint32_t tls_cbc_seal(const uint8_t key[AES_KEY_BYTES], const uint8_t mac_key[TLS_MAC_BYTES], const struct tls_record *record,
        uint8_t *bytes, uint32_t content) {
    uint8_t first[13], mac[32];
    uint32_t count = tls_cbc_sealed_count(content), padding = count - content - TLS_MAC_BYTES;
    make_first(record, content, first);
    make_mac(mac_key, first, bytes, 13 + content, 13 + content, mac);
    copied(bytes + content, mac, TLS_MAC_BYTES);
    filled(bytes + count - padding, (uint8_t)(padding - 1), padding);
    encrypt(key, record->vector, bytes, count);
    return count;
}

bool tls_cbc_check(const uint8_t key[AES_KEY_BYTES], const uint8_t mac_key[TLS_MAC_BYTES],
        const struct tls_record *record, uint8_t *bytes, uint32_t count, uint32_t *content) {
    uint8_t first[13], mac[32], ending[ENDING_BYTES];
    uint32_t window = count < ENDING_BYTES ? count : ENDING_BYTES;
    *content = 0;
    if (count % 16 != 0 || count < TLS_MAC_BYTES + 1)
        return false;
    decrypt(key, record->vector, bytes, count);
    filled(ending, 0, ENDING_BYTES);
    copied(ending + ENDING_BYTES - window, bytes + count - window, window);
    uint32_t padding = tls_padding(ending + ENDING_BYTES - 256, count, TLS_MAC_BYTES);
    uint32_t length = count - TLS_MAC_BYTES - padding;
    make_first(record, length, first);
    make_mac(mac_key, first, bytes, 13 + length, 13 + count - TLS_MAC_BYTES, mac);
    bool right = mac_check(ending, padding, mac);
    wiped(ending, sizeof ending);
    wiped(mac, sizeof mac);
    *content = length;
    return right;
}

bool tls_cbc_open(const uint8_t key[AES_KEY_BYTES], const uint8_t mac_key[TLS_MAC_BYTES],
        const struct tls_record *record, uint8_t *bytes, uint32_t count, uint32_t *content) {
    bool right = tls_cbc_check(key, mac_key, record, bytes, count, content);
    /* Whether a record is accepted is public: the branch shows no more. */
    if (!right) {
        wiped(bytes, count);
        *content = 0;
    }
    return right;
}
