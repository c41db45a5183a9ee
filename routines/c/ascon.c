#include "ascon.h"

#include "ascon_permute.h"
#include "equal_16.h"
#include "message.h"

/* Numbers of the state are two words, the upper one first, and their bytes come from the lowest one up. */
static uint32_t word_at(uint32_t at) {
    return 2 * (at / 8) + 1 - at % 8 / 4;
}

static void add_bytes(uint32_t *state, const uint8_t *bytes, uint32_t count) {
    for (uint32_t at = 0; at < count; at++)
        state[word_at(at)] ^= (uint32_t)bytes[at] << 8 * (at % 4);
}

static void end_at(uint32_t *state, uint32_t at) {
    state[word_at(at)] ^= (uint32_t)1 << 8 * (at % 4);
}

static void take_bytes(uint8_t *bytes, const uint32_t *state, uint32_t count) {
    for (uint32_t at = 0; at < count; at++)
        bytes[at] = (uint8_t)(state[word_at(at)] >> 8 * (at % 4));
}

static void begin(uint32_t state[10], const uint8_t key[16], const uint8_t nonce[16], struct ascon_data data) {
    for (uint32_t at = 0; at < 10; at++)
        state[at] = 0;
    state[0] = 0x00001000;
    state[1] = 0x808c0001;
    add_bytes(state + 2, key, 16);
    add_bytes(state + 6, nonce, 16);
    ascon_permute(state, 12);
    add_bytes(state + 6, key, 16);
    for (uint32_t at = 0; data.count > 0 && at <= data.count; at += 16) {
        uint32_t here = data.count - at < 16 ? data.count - at : 16;
        add_bytes(state, data.bytes + at, here);
        if (here < 16)
            end_at(state, here);
        ascon_permute(state, 8);
    }
    state[8] ^= 0x80000000;
}

/* What comes into the state is the text before it is encrypted, or behind its decryption. */
static void crypt(uint32_t state[10], uint8_t *text, uint32_t count, bool seals) {
    uint8_t stream[16];
    for (uint32_t at = 0; at <= count; at += 16) {
        uint32_t here = count - at < 16 ? count - at : 16;
        take_bytes(stream, state, here);
        if (seals)
            add_bytes(state, text + at, here);
        added(text + at, stream, here);
        if (!seals)
            add_bytes(state, text + at, here);
        if (here < 16)
            end_at(state, here);
        else
            ascon_permute(state, 8);
    }
    wiped(stream, sizeof stream);
}

static void finish(uint32_t state[10], const uint8_t key[16], uint8_t tag[16]) {
    add_bytes(state + 4, key, 16);
    ascon_permute(state, 12);
    add_bytes(state + 6, key, 16);
    take_bytes(tag, state + 6, 16);
    wiped(state, 40);
}

void ascon_seal(const uint8_t key[16], const uint8_t nonce[16], struct ascon_data data, uint8_t *text, uint32_t count, uint8_t tag[16]) {
    uint32_t state[10];
    begin(state, key, nonce, data);
    crypt(state, text, count, true);
    finish(state, key, tag);
}

bool ascon_check(const uint8_t key[16], const uint8_t nonce[16], struct ascon_data data, uint8_t *text, uint32_t count,
    const uint8_t tag[16]) {
    uint32_t state[10];
    uint8_t wanted[16];
    begin(state, key, nonce, data);
    crypt(state, text, count, false);
    finish(state, key, wanted);
    bool right = equal_16(wanted, tag);
    wiped(wanted, sizeof wanted);
    return right;
}

bool ascon_open(const uint8_t key[16], const uint8_t nonce[16], struct ascon_data data, uint8_t *text, uint32_t count,
    const uint8_t tag[16]) {
    bool right = ascon_check(key, nonce, data, text, count, tag);
    /* Whether a message is accepted is public: the branch shows no more. */
    if (!right)
        wiped(text, count);
    return right;
}

static void init(struct ascon_hash *hash, uint32_t upper, uint32_t lower) {
    wiped(hash, sizeof *hash);
    hash->state[0] = upper;
    hash->state[1] = lower;
    ascon_permute(hash->state, 12);
}

void ascon_hash256_init(struct ascon_hash *hash) {
    init(hash, 0x00000801, 0x00cc0002);
}

void ascon_xof128_init(struct ascon_hash *hash) {
    init(hash, 0x00000800, 0x00cc0003);
}

void ascon_update(struct ascon_hash *hash, const uint8_t *bytes, uint32_t count) {
    for (uint32_t at = 0; at < count; at++) {
        hash->state[word_at(hash->used)] ^= (uint32_t)bytes[at] << 8 * (hash->used % 4);
        hash->used++;
        if (hash->used == 8) {
            ascon_permute(hash->state, 12);
            hash->used = 0;
        }
    }
}

void ascon_finish(struct ascon_hash *hash, uint8_t *digest, uint32_t count) {
    end_at(hash->state, hash->used);
    for (uint32_t at = 0; at < count; at += 8) {
        ascon_permute(hash->state, 12);
        take_bytes(digest + at, hash->state, count - at < 8 ? count - at : 8);
    }
    wiped(hash, sizeof *hash);
}
