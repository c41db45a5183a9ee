#include "chacha20_poly1305.h"

#include "chacha20_block.h"
#include "chacha20_blocks.h"
#include "equal_16.h"
#include "poly1305_blocks.h"
#include "poly1305_finish.h"

/* How many bytes the routines take at once. */
#define PART 256

static void copied(uint8_t *to, const uint8_t *from, uint32_t count) {
    for (uint32_t at = 0; at < count; at++)
        to[at] = from[at];
}

/* Volatile, so that no compiler leaves it out. */
static void wiped(void *place, uint32_t count) {
    volatile uint8_t *bytes = place;
    while (count--)
        *bytes++ = 0;
}

/* The key stream's blocks from the second on; the first gives the key of the tag. Whole parts are encrypted where they are. */
static void encrypt(const uint8_t key[32], const uint8_t nonce[12], uint8_t *text, uint32_t count) {
    uint8_t part[PART] = {0};
    uint32_t at = 0;
    for (; count - at >= PART; at += PART)
        chacha20_blocks(key, at / 64 + 1, nonce, text + at, PART);
    copied(part, text + at, count - at);
    chacha20_blocks(key, at / 64 + 1, nonce, part, count - at);
    copied(text + at, part, count - at);
    wiped(part, sizeof part);
}

/* Blocks of 16 bytes, the last filled with zeros. */
static void add(const uint8_t key[32], uint32_t sum[10], const uint8_t *bytes, uint32_t count) {
    uint8_t part[PART] = {0};
    uint32_t at = 0;
    for (; count - at >= PART; at += PART)
        poly1305_blocks(key, bytes + at, PART, sum);
    copied(part, bytes + at, count - at);
    poly1305_blocks(key, part, (count - at + 15) / 16 * 16, sum);
}

static void make_tag(const uint8_t key[32], const uint8_t nonce[12], struct associated data, const uint8_t *text, uint32_t count, uint8_t tag[16]) {
    uint8_t stream[64], lengths[16] = {0};
    uint32_t sum[10] = {0};
    chacha20_block(key, 0, nonce, stream);
    for (int byte = 0; byte < 4; byte++) {
        lengths[byte] = (uint8_t)(data.count >> 8 * byte);
        lengths[byte + 8] = (uint8_t)(count >> 8 * byte);
    }
    add(stream, sum, data.bytes, data.count);
    add(stream, sum, text, count);
    add(stream, sum, lengths, 16);
    poly1305_finish(stream, sum, tag);
    wiped(stream, sizeof stream);
    wiped(sum, sizeof sum);
}

void seal(const uint8_t key[32], const uint8_t nonce[12], struct associated data, uint8_t *text, uint32_t count, uint8_t tag[16]) {
    encrypt(key, nonce, text, count);
    make_tag(key, nonce, data, text, count, tag);
}

bool open_sealed(const uint8_t key[32], const uint8_t nonce[12], struct associated data, uint8_t *text, uint32_t count, const uint8_t tag[16]) {
    uint8_t wanted[16];
    make_tag(key, nonce, data, text, count, wanted);
    /* Whether a message is accepted is public: the branch shows no more. */
    bool right = equal_16(wanted, tag);
    wiped(wanted, sizeof wanted);
    if (right)
        encrypt(key, nonce, text, count);
    return right;
}
