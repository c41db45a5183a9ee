#include "ed25519.h"

#include "ed25519_decode.h"
#include "ed25519_multiply_add.h"
#include "ed25519_point_add.h"
#include "ed25519_reduce.h"
#include "ed25519_scalar_multiply.h"
#include "equal_32.h"
#include "f25519_invert.h"
#include "f25519_multiply.h"
#include "f25519_subtract.h"
#include "message.h"
#include "sha.h"

static const uint8_t base[64] = {
    0x1a, 0xd5, 0x25, 0x8f, 0x60, 0x2d, 0x56, 0xc9, 0xb2, 0xa7, 0x25, 0x95, 0x60, 0xc7, 0x2c, 0x69,
    0x5c, 0xdc, 0xd6, 0xfd, 0x31, 0xe2, 0xa4, 0xc0, 0xfe, 0x53, 0x6e, 0xcd, 0xd3, 0x36, 0x69, 0x21,
    0x58, 0x66, 0x66, 0x66, 0x66, 0x66, 0x66, 0x66, 0x66, 0x66, 0x66, 0x66, 0x66, 0x66, 0x66, 0x66,
    0x66, 0x66, 0x66, 0x66, 0x66, 0x66, 0x66, 0x66, 0x66, 0x66, 0x66, 0x66, 0x66, 0x66, 0x66, 0x66};
static const uint8_t zero[32] = {0}, one[32] = {1};

/* y, with the lowest bit of x above it. */
static void encode(const uint8_t point[64], uint8_t encoded[32]) {
    copied(encoded, point + 32, 32);
    encoded[31] |= (uint8_t)(point[0] << 7);
}

static void multiply_base(const uint8_t scalar[32], uint8_t encoded[32]) {
    uint8_t point[64];
    ed25519_scalar_multiply(scalar, base, point);
    encode(point, encoded);
    wiped(point, sizeof point);
}

/* The scalar of the digest of up to two numbers of 32 bytes and a message. */
static void digest_scalar(const uint8_t *first, const uint8_t *second, const uint8_t *message, uint32_t count, uint8_t scalar[32]) {
    struct sha hash;
    uint8_t digest[64];
    sha_init(&hash, &sha_512);
    sha_update(&hash, first, 32);
    if (second)
        sha_update(&hash, second, 32);
    sha_update(&hash, message, count);
    sha_finish(&hash, digest);
    ed25519_reduce(digest, scalar);
    wiped(digest, sizeof digest);
}

/* The scalar of a seed, and behind it what makes the nonces. */
static void expand(const uint8_t seed[32], uint8_t expanded[64]) {
    struct sha hash;
    sha_init(&hash, &sha_512);
    sha_update(&hash, seed, 32);
    sha_finish(&hash, expanded);
    expanded[0] &= 248;
    expanded[31] = (uint8_t)((expanded[31] & 127) | 64);
}

void ed25519_public_key(const uint8_t seed[32], uint8_t public_key[32]) {
    uint8_t expanded[64];
    expand(seed, expanded);
    multiply_base(expanded, public_key);
    wiped(expanded, sizeof expanded);
}

void ed25519_sign(const uint8_t seed[32], const uint8_t public_key[32], const uint8_t *message, uint32_t count, uint8_t signature[64]) {
    uint8_t expanded[64], nonce[32], scalar[32];
    expand(seed, expanded);
    digest_scalar(expanded + 32, 0, message, count, nonce);
    multiply_base(nonce, signature);
    digest_scalar(signature, public_key, message, count, scalar);
    ed25519_multiply_add(scalar, expanded, nonce, signature + 32);
    wiped(expanded, sizeof expanded);
    wiped(nonce, sizeof nonce);
}

static void words_of(const uint8_t bytes[32], uint32_t words[8]) {
    for (uint32_t at = 0; at < 8; at++)
        words[at] = lowest_first_word(bytes + 4 * at);
}

/* X, Y, Z and T of a point. */
static void extend(const uint8_t point[64], uint32_t extended[32]) {
    words_of(point, extended);
    words_of(point + 32, extended + 8);
    words_of(one, extended + 16);
    f25519_multiply(extended, extended + 8, extended + 24);
}

/* The sum of two points, encoded. */
static void add_and_encode(const uint8_t p[64], const uint8_t q[64], uint8_t encoded[32]) {
    uint32_t first[32], second[32], sum[32], inverse[8], x[8], y[8];
    extend(p, first);
    extend(q, second);
    ed25519_point_add(first, second, sum);
    f25519_invert(sum + 16, inverse);
    f25519_multiply(sum, inverse, x);
    f25519_multiply(sum + 8, inverse, y);
    for (uint32_t at = 0; at < 8; at++)
        lowest_first(encoded + 4 * at, y[at]);
    encoded[31] |= (uint8_t)(x[0] << 7);
}

static void negate(uint8_t point[64]) {
    uint32_t x[8], none[8], negative[8];
    words_of(point, x);
    words_of(zero, none);
    f25519_subtract(none, x, negative);
    for (uint32_t at = 0; at < 8; at++)
        lowest_first(point + 4 * at, negative[at]);
}

bool ed25519_verify(const uint8_t public_key[32], const uint8_t *message, uint32_t count, const uint8_t signature[64]) {
    uint8_t key[64], first[64], second[64], scalar[32], reduced[32], encoded[32];
    /* the second half is below the order */
    ed25519_multiply_add(signature + 32, one, zero, reduced);
    if (!equal_32(reduced, signature + 32) || !ed25519_decode(public_key, key))
        return false;
    negate(key);
    digest_scalar(signature, public_key, message, count, scalar);
    ed25519_scalar_multiply(signature + 32, base, first);
    ed25519_scalar_multiply(scalar, key, second);
    add_and_encode(first, second, encoded);
    return equal_32(encoded, signature);
}
