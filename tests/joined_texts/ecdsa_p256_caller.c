#include "ecdsa_p256.h"
#include "caller.h"

/* What is wrong with the check of a signature: each of the three is changed by one bit at a time. */
static const char *wrong_check(uint8_t public_key[64], uint8_t digest[32], uint8_t signature[64]) {
    if (!ecdsa_p256_verify(public_key, digest, signature))
        return "verify";
    for (uint32_t bit = 3; bit < 512; bit += 101) {
        signature[bit / 8] ^= 1 << bit % 8;
        if (ecdsa_p256_verify(public_key, digest, signature))
            return "another_signature";
        signature[bit / 8] ^= 1 << bit % 8;
    }
    digest[31] ^= 1;
    if (ecdsa_p256_verify(public_key, digest, signature))
        return "another_digest";
    digest[31] ^= 1;
    public_key[63] ^= 1;
    if (ecdsa_p256_verify(public_key, digest, signature))
        return "another_key";
    public_key[63] ^= 1;
    for (uint32_t at = 0; at < 32; at++)
        signature[at] = 0;
    return ecdsa_p256_verify(public_key, digest, signature) ? "zero" : 0;
}

/* A signature that is there already, of vectors whose labels begin with verify. */
static const char *wrong_verify(const struct vector *vector) {
    const struct part *parts = vector->parts;
    return ecdsa_p256_verify(parts[0].bytes, parts[1].bytes, parts[2].bytes) == vector->accepted ? 0 : "verify";
}

const char *wrong_with(const struct vector *vector) {
    if (vector->label[0] == 'v')
        return wrong_verify(vector);
    /* The key may be right and the other's public key not. */
    const bool right_key = vector->parts[3].count > 0;
    const uint8_t *key = vector->parts[0].bytes, *other = vector->parts[2].bytes;
    uint8_t digest[32], public_key[64], signature[64], shared[32];
    taken(digest, vector->parts[1]);
    if (p256_public_key(key, public_key) != right_key || !same(public_key, vector->parts[3]))
        return "public_key";
    if (ecdsa_p256_sign(key, digest, signature) != right_key || !same(signature, vector->parts[4]))
        return "sign";
    if (p256_agree(key, other, shared) != vector->accepted || !same(shared, vector->parts[5]))
        return "agree";
    if (!vector->accepted && !all_zero(shared, 32))
        return "not_zero";
    if (!right_key)
        return all_zero(signature, 64) ? 0 : "not_zero";
    return wrong_check(public_key, digest, signature);
}
