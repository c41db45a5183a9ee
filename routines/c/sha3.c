/* What sha3.h says, around keccak_f1600. The state is 200 bytes as words, the lowest byte first, as RISC-V keeps them in memory. */
#include "sha3.h"

#include "keccak_f1600.h"
#include "message.h"

static uint8_t *next(struct sha3 *hash) {
    return (uint8_t *)hash->state + hash->at;
}

static void begin(struct sha3 *hash, uint32_t rate, uint8_t ending) {
    filled((uint8_t *)hash->state, 0, 200);
    hash->rate = rate;
    hash->at = 0;
    hash->ending = ending;
}

/* How many of so many bytes go before the next permutation, which comes where there is no room. */
static uint32_t room(struct sha3 *hash, uint32_t count) {
    if (hash->at == hash->rate) {
        keccak_f1600(hash->state);
        hash->at = 0;
    }
    return count < hash->rate - hash->at ? count : hash->rate - hash->at;
}

void sha3_init(struct sha3 *hash, uint32_t digest_bytes) {
    begin(hash, 200 - 2 * digest_bytes, 0x06);
}

void shake_init(struct sha3 *hash, uint32_t bits) {
    begin(hash, 200 - bits / 4, 0x1f);
}

void sha3_update(struct sha3 *hash, const uint8_t *bytes, uint32_t count) {
    while (count > 0) {
        uint32_t here = room(hash, count);
        added(next(hash), bytes, here);
        hash->at += here;
        bytes += here;
        count -= here;
    }
}

void shake_finish(struct sha3 *hash) {
    room(hash, 1);
    *next(hash) ^= hash->ending;
    hash->at = hash->rate;
    *(next(hash) - 1) ^= 0x80;
}

void shake_squeeze(struct sha3 *hash, uint8_t *bytes, uint32_t count) {
    while (count > 0) {
        uint32_t here = room(hash, count);
        copied(bytes, next(hash), here);
        hash->at += here;
        bytes += here;
        count -= here;
    }
}

void sha3_finish(struct sha3 *hash, uint8_t *digest) {
    shake_finish(hash);
    shake_squeeze(hash, digest, (200 - hash->rate) / 2);
    sha3_wipe(hash);
}

void sha3_wipe(struct sha3 *hash) {
    wiped(hash, sizeof *hash);
}
