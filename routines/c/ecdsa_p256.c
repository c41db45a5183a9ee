#include "ecdsa_p256.h"

#include "copy_if_32.h"
#include "hmac_sha256.h"
#include "less_32.h"
#include "message.h"
#include "p256_from_bytes.h"
#include "p256_invert.h"
#include "p256_multiply.h"
#include "p256_point_add.h"
#include "p256_scalar_multiply.h"
#include "p256_sign.h"
#include "p256_to_bytes.h"
#include "p256_verify_scalars.h"

static const uint8_t base[64] = {
    0x6b, 0x17, 0xd1, 0xf2, 0xe1, 0x2c, 0x42, 0x47, 0xf8, 0xbc, 0xe6, 0xe5, 0x63, 0xa4, 0x40, 0xf2,
    0x77, 0x03, 0x7d, 0x81, 0x2d, 0xeb, 0x33, 0xa0, 0xf4, 0xa1, 0x39, 0x45, 0xd8, 0x98, 0xc2, 0x96,
    0x4f, 0xe3, 0x42, 0xe2, 0xfe, 0x1a, 0x7f, 0x9b, 0x8e, 0xe7, 0xeb, 0x4a, 0x7c, 0x0f, 0x9e, 0x16,
    0x2b, 0xce, 0x33, 0x57, 0x6b, 0x31, 0x5e, 0xce, 0xcb, 0xb6, 0x40, 0x68, 0x37, 0xbf, 0x51, 0xf5};
static const uint8_t order[32] = {
    0xff, 0xff, 0xff, 0xff, 0x00, 0x00, 0x00, 0x00, 0xff, 0xff, 0xff, 0xff, 0xff, 0xff, 0xff, 0xff,
    0xbc, 0xe6, 0xfa, 0xad, 0xa7, 0x17, 0x9e, 0x84, 0xf3, 0xb9, 0xca, 0xc2, 0xfc, 0x63, 0x25, 0x51};

bool p256_public_key(const uint8_t key[32], uint8_t public_key[64]) {
    return p256_scalar_multiply(key, base, public_key);
}

bool p256_agree(const uint8_t key[32], const uint8_t public_key[64], uint8_t shared[32]) {
    uint8_t point[64];
    bool right = p256_scalar_multiply(key, public_key, point);
    copied(shared, point, 32);
    wiped(point, sizeof point);
    return right;
}

/* Less the order, where a number is not below that. */
static void reduce(uint8_t number[32]) {
    uint8_t less[32];
    uint32_t borrow = 0;
    for (int at = 31; at >= 0; at--) {
        uint32_t difference = (uint32_t)number[at] - order[at] - borrow;
        less[at] = (uint8_t)difference;
        borrow = difference >> 31;
    }
    copy_if_32(!less_32(number, order), less, number);
    wiped(less, sizeof less);
}

/* The generator of RFC 6979, section 3.2: its key, and what it made last. */
struct generator {
    uint8_t key[64], value[119];
};

static void next_value(struct generator *generator) {
    hmac_sha256(generator->key, 32, generator->value, 32, generator->value);
}

/* A new key, of the value, a byte, and what may stand behind it. */
static void next_key(struct generator *generator, uint8_t byte, uint32_t behind) {
    uint8_t made[32];
    generator->value[32] = byte;
    hmac_sha256(generator->key, 32, generator->value, 33 + behind, made);
    copied(generator->key, made, 32);
    wiped(made, sizeof made);
    next_value(generator);
}

static void begin(struct generator *generator, const uint8_t key[32], const uint8_t digest[32]) {
    wiped(generator, sizeof *generator);
    filled(generator->value, 1, 32);
    copied(generator->value + 33, key, 32);
    copied(generator->value + 65, digest, 32);
    reduce(generator->value + 65);
    next_key(generator, 0, 64);
    next_key(generator, 1, 64);
}

/* The first value that is below the order. One in 2^32 is not, so two are always made, in the same time. */
static void make_nonce(const uint8_t key[32], const uint8_t digest[32], uint8_t nonce[32]) {
    struct generator generator;
    uint8_t first[32];
    begin(&generator, key, digest);
    next_value(&generator);
    copied(first, generator.value, 32);
    next_key(&generator, 0, 0);
    next_value(&generator);
    copied(nonce, generator.value, 32);
    copy_if_32(less_32(first, order), first, nonce);
    wiped(&generator, sizeof generator);
    wiped(first, sizeof first);
}

bool ecdsa_p256_sign(const uint8_t key[32], const uint8_t digest[32], uint8_t signature[64]) {
    uint8_t nonce[32], point[64];
    make_nonce(key, digest, nonce);
    p256_scalar_multiply(nonce, base, point);
    bool right = p256_sign(key, nonce, digest, point, signature);
    wiped(nonce, sizeof nonce);
    wiped(point, sizeof point);
    return right;
}

/* X, Y and Z of a point that is a scalar times another; those of the point at infinity where there is no such point. */
static bool multiplied(const uint8_t scalar[32], const uint8_t point[64], uint32_t sum[24]) {
    static const uint8_t one[32] = {[31] = 1};
    uint8_t result[64];
    bool right = p256_scalar_multiply(scalar, point, result);
    p256_from_bytes(result, sum);
    p256_from_bytes(right ? result + 32 : one, sum + 8);
    p256_from_bytes(one, sum + 16);
    for (int at = 16; at < 24 && !right; at++)
        sum[at] = 0;
    return right;
}

bool ecdsa_p256_verify(const uint8_t public_key[64], const uint8_t digest[32], const uint8_t signature[64]) {
    uint8_t factors[64], x[32];
    uint32_t one[24], other[24], sum[24], inverse[8], affine[8];
    if (!p256_verify_scalars(signature, digest, factors))
        return false;
    /* r is not 0, so the key's point is infinite only where it is not on the curve */
    multiplied(factors, base, one);
    if (!multiplied(factors + 32, public_key, other))
        return false;
    p256_point_add(one, other, sum);
    p256_invert(sum + 16, inverse);
    p256_multiply(sum, inverse, affine);
    p256_to_bytes(affine, x);
    reduce(x);
    int different = 0;
    for (int at = 0; at < 32; at++)
        different |= x[at] ^ signature[at];
    return different == 0;
}
