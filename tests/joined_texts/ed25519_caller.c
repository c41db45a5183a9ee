#include "ed25519.h"
#include "caller.h"

/* A signature that is there already, of vectors whose labels begin so. */
static const char *wrong_verify(const struct vector *vector) {
    const struct part *parts = vector->parts;
    return ed25519_verify(parts[0].bytes, parts[1].bytes, parts[1].count, parts[2].bytes) == vector->accepted ? 0 : "verify";
}

const char *wrong_with(const struct vector *vector) {
    if (vector->label[0] == 'v')
        return wrong_verify(vector);
    const uint8_t *seed = vector->parts[0].bytes;
    static uint8_t message[MOST_BYTES];
    uint32_t count = vector->parts[1].count;
    uint8_t public_key[32], signature[64];
    taken(message, vector->parts[1]);
    ed25519_public_key(seed, public_key);
    if (!same(public_key, vector->parts[2]))
        return "public_key";
    ed25519_sign(seed, public_key, message, count, signature);
    if (!same(signature, vector->parts[3]))
        return "sign";
    if (!ed25519_verify(public_key, message, count, signature))
        return "verify";
    for (uint32_t bit = 1; bit < 512; bit += 102) {
        signature[bit / 8] ^= 1 << bit % 8;
        if (ed25519_verify(public_key, message, count, signature))
            return "another_signature";
        signature[bit / 8] ^= 1 << bit % 8;
    }
    message[count] = 0;
    if (ed25519_verify(public_key, message, count + 1, signature))
        return "a_longer_message";
    public_key[3] ^= 16;
    return ed25519_verify(public_key, message, count, signature) ? "another_key" : 0;
}
